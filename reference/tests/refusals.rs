//! 01, "Answer numbers": each number, and the order of 8 to 12.

use reference::samples::{hex, one_step_table, private_registers, s_with_double, S};
use reference::{
    build, judge, place_by_rules, place_by_table, read_sheet, read_table, row, Placed, Refusal,
    Verdict,
};

const ROOM: usize = 1 << 16;

fn refusal(number: u8, position: usize, fault: u8) -> Refusal {
    Refusal {
        number,
        position,
        fault,
    }
}

/// Asserts that both walks refuse alike, by S without stack for double and by the table built from it.
fn assert_refused(kinds: &[u8], room: usize, refusal: Refusal) {
    let sheet = s_with_double(|double| double.flags = 0);
    assert_eq!(place_by_rules(&sheet, kinds, room), Err(refusal));
    assert_eq!(
        place_by_table(&build(&sheet, ROOM).unwrap(), kinds, room),
        Err(refusal)
    );
}

#[test]
fn each_number_is_given() {
    let sheet = |text| read_sheet(&hex(text)).unwrap_err();
    let table = |text| read_table(&hex(text)).unwrap_err();
    let given = [
        sheet("00"),
        sheet("00 01 02"),
        sheet("00 00"),
        sheet("00 02 01 11"),
        sheet("00 06 01 00 01 01 01 00"),
        sheet("00 0A 01 00 01 01 01 01 01 01 00 00"),
        table("00 0C 01 00 01 01 01 01 01 01 03 00 00 00"),
        place_by_rules(&S, &[0; 401], ROOM).unwrap_err(),
        place_by_rules(&S, &[3], ROOM).unwrap_err(),
        place_by_table(&one_step_table([0; 4]).bytes(), &[0], ROOM).unwrap_err(),
        build(&private_registers(8).bytes(), ROOM).unwrap_err(),
        judge(&one_step_table([0; 4]).bytes(), 1).unwrap_err(),
        row(&one_step_table([0; 4]).bytes(), 1).unwrap_err(),
    ];
    for (number, given) in (1..).zip(given) {
        let fault = u8::from(number == 10);
        assert_eq!(given, refusal(number, 0, fault));
    }
}

#[test]
fn too_many_arguments_come_before_short_output() {
    assert_refused(&[255; 401], 0, refusal(8, 0, 0));
    assert_refused(&[2; 401], ROOM, refusal(8, 0, 0));
}

#[test]
fn short_output_comes_before_no_such_kind() {
    assert_refused(&[2, 2, 2, 255], 23, refusal(12, 0, 0));
    assert_refused(&[255; 400], 2399, refusal(12, 0, 0));
}

#[test]
fn no_such_kind_comes_before_an_earlier_fault() {
    assert_refused(&[2, 2, 2, 0, 3, 4], 36, refusal(9, 4, 0));
    assert_refused(&[2, 2, 2, 255], 24, refusal(9, 3, 0));
}

#[test]
fn first_fault_is_told_with_its_position() {
    assert_refused(&[2, 2, 2, 2], 24, refusal(10, 2, 1));
    assert_refused(&[0, 1, 1, 0, 0, 1, 2, 0, 2], 54, refusal(10, 6, 1));
}

#[test]
fn each_fault_of_a_table_is_told() {
    let faults = [
        ([0, 0, 0, 0], 0, 1),
        ([1, 0, 1, 0], 1, 2),
        ([1, 0, 0, 0], 0, 3),
        ([2, 0, 5, 0], 0, 3),
        ([2, 2, 3, 0], 0, 3),
        ([2, 2, 4, 0], 0, 4),
    ];
    for (step, position, fault) in faults {
        let table = one_step_table(step).bytes();
        assert_eq!(
            place_by_table(&table, &[0, 0, 0], 18),
            Err(refusal(10, position, fault))
        );
        assert_eq!(
            judge(&table, 2),
            Ok(Verdict::Fault {
                fault,
                list: vec![0; position + 1]
            })
        );
    }
}

#[test]
fn six_bytes_an_argument_are_enough() {
    let records = hex("01 00 00 00 00 01 01 00 00 00 01 02");
    let placed = Placed {
        records,
        count: 2,
        p: 0,
    };
    assert_eq!(place_by_rules(&S, &[1, 2], 12), Ok(placed.clone()));
    assert_eq!(place_by_rules(&S, &[1, 2], 11), Err(refusal(12, 0, 0)));
    assert_eq!(
        place_by_rules(&S, &[], 0),
        Ok(Placed {
            records: vec![],
            count: 0,
            p: 0
        })
    );
    let table = build(&S, ROOM).unwrap();
    assert_eq!(place_by_table(&table, &[1, 2], 12), Ok(placed));
    assert_eq!(place_by_table(&table, &[1, 2], 11), Err(refusal(12, 0, 0)));
}

#[test]
fn building_needs_the_length_of_the_table() {
    assert_eq!(build(&S, 158), build(&S, ROOM));
    assert_eq!(build(&S, 157), Err(refusal(12, 0, 0)));
}

#[test]
fn too_many_states_come_before_short_output() {
    assert_eq!(
        build(&private_registers(8).bytes(), 0),
        Err(refusal(11, 0, 0))
    );
    assert_eq!(
        build(&private_registers(7).bytes(), 0),
        Err(refusal(12, 0, 0))
    );
}

#[test]
fn judging_needs_two_bytes_a_state() {
    let table = build(&S, ROOM).unwrap();
    assert_eq!(judge(&table, 24), Ok(Verdict::Clean));
    assert_eq!(judge(&table, 23), Err(refusal(12, 0, 0)));
    let faulty = one_step_table([0; 4]).bytes();
    assert_eq!(judge(&faulty, 1), Err(refusal(12, 0, 0)));
}
