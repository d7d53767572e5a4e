//! 01, "Examples to settle the reading" and "Misreadings we have met"; 02, W-202.

use reference::samples::{hex, one_step_table, private_registers, s_with_double, S};
use reference::{
    allocation_states, build, judge, line, place_by_rules, place_by_table, read_sheet, read_table,
    Head, Placed, Refusal, Table, TableKind, Transition, Verdict,
};

const ROOM: usize = 6 * 400;

const CHAR: u8 = 0;
const INT: u8 = 1;
const DOUBLE: u8 = 2;

fn registers(first: u8, count: u8) -> [u8; 6] {
    [1, 0, 0, 0, first, count]
}

fn stack(offset: u8, count: u8) -> [u8; 6] {
    [2, 0, 0, 0, offset, count]
}

/// Asserts the answer of both walks, by the sheet's rules and by the table built from it.
fn assert_places(sheet: &[u8], kinds: &[u8], records: &[[u8; 6]], p: u32) {
    let placed = Placed {
        records: records.concat(),
        count: records.len(),
        p,
    };
    assert_eq!(place_by_rules(sheet, kinds, ROOM), Ok(placed.clone()));
    let table = build(sheet, 6424).expect("the sheet has a table");
    assert_eq!(place_by_table(&table, kinds, ROOM), Ok(placed));
}

fn assert_judged(step: [u8; 4], verdict: Verdict) {
    assert_eq!(judge(&one_step_table(step).bytes(), 2), Ok(verdict));
}

fn fault(fault: u8, list: &[u8]) -> Verdict {
    Verdict::Fault {
        fault,
        list: list.to_vec(),
    }
}

fn table(head: [u8; 4], kinds: &[[u8; 2]], rows: &[&[[u8; 4]]]) -> Vec<u8> {
    let [registers, width, modulus, count] = head;
    let transition = |&[form, a, b, next]: &[u8; 4]| Transition { form, a, b, next };
    let table = Table {
        head: Head {
            registers,
            width,
            modulus,
            kinds: count,
        },
        kinds: kinds
            .iter()
            .map(|&[size, alignment]| TableKind { size, alignment })
            .collect(),
        rows: rows
            .iter()
            .map(|row| row.iter().map(transition).collect())
            .collect(),
    };
    table.bytes()
}

/// Asserts that the judge answers this fault and list, and that placing the list by the table has
/// this fault at the last argument.
fn assert_faulty(table: &[u8], number: u8, list: &[u8]) {
    assert_eq!(judge(table, 4), Ok(fault(number, list)));
    let refusal = Refusal {
        number: 10,
        position: list.len() - 1,
        fault: number,
    };
    assert_eq!(place_by_table(table, list, ROOM), Err(refusal));
}

/// 02, W-202: a table for doubles and registers of four bytes, by which the first double is given
/// `count` registers and every later one goes to the stack.
fn first_double_in(count: u8) -> Vec<u8> {
    let rows: [&[[u8; 4]]; 2] = [&[[1, 0, count, 1]], &[[2, 0, 8, 1]]];
    table([4, 4, 8, 1], &[[8, 8]], &rows)
}

#[test]
fn s_is_the_sheet_of_the_document() {
    let text =
        "00 1C 01 04 04 08 03 01 01 01 04 00 01 02 03 04 04 01 04 00 01 02 03 08 08 01 03 00 01 02";
    assert_eq!(hex(text), S);
}

#[test]
fn p1_empty_list() {
    assert_places(&S, &[], &[], 0);
}

#[test]
fn p2_double_on_the_stack() {
    let records = [
        registers(0, 1),
        registers(1, 1),
        registers(2, 1),
        stack(0, 8),
    ];
    assert_places(&S, &[CHAR, INT, INT, DOUBLE], &records, 8);
}

#[test]
fn p3_two_doubles_first() {
    let records = [registers(0, 2), registers(2, 2), stack(0, 1), stack(4, 4)];
    assert_places(&S, &[DOUBLE, DOUBLE, CHAR, INT], &records, 8);
}

#[test]
fn p4_skipped_register_stays_free() {
    let records = [
        registers(0, 1),
        registers(1, 1),
        registers(2, 1),
        stack(0, 8),
        registers(3, 1),
    ];
    assert_places(&S, &[CHAR, INT, INT, DOUBLE, INT], &records, 8);
}

#[test]
fn p5_closing_double() {
    let sheet = s_with_double(|double| double.flags = 3);
    let records = [
        registers(0, 1),
        registers(1, 1),
        registers(2, 1),
        stack(0, 8),
        stack(8, 4),
    ];
    assert_places(&sheet, &[CHAR, INT, INT, DOUBLE, INT], &records, 12);
}

#[test]
fn p6_double_without_stack() {
    let sheet = s_with_double(|double| double.flags = 0);
    let refusal = Refusal {
        number: 10,
        position: 2,
        fault: 1,
    };
    assert_eq!(place_by_rules(&sheet, &[0, 2, 2], ROOM), Err(refusal));
    let table = build(&sheet, 6424).unwrap();
    assert_eq!(place_by_table(&table, &[0, 2, 2], ROOM), Err(refusal));
}

#[test]
fn p7_closing_double_in_registers() {
    let sheet = s_with_double(|double| {
        double.flags = 3;
        double.starts = vec![0, 2];
    });
    assert_places(
        &sheet,
        &[INT, DOUBLE, INT],
        &[registers(0, 1), registers(2, 2), stack(0, 4)],
        4,
    );
}

#[test]
fn p8_register_given_twice() {
    assert_judged([1, 0, 1, 0], fault(2, &[0, 0]));
}

#[test]
fn p9_stack_alone() {
    assert_judged([2, 0, 4, 0], Verdict::Clean);
}

#[test]
fn p10_wrong_number_of_bytes() {
    assert_judged([2, 0, 3, 0], fault(3, &[0]));
}

#[test]
fn p11_wrong_residue() {
    assert_judged([2, 2, 4, 0], fault(4, &[0]));
}

#[test]
fn p12_first_fault_that_applies() {
    assert_judged([2, 2, 3, 0], fault(3, &[0]));
}

#[test]
fn table_of_s() {
    let bytes = build(&S, 158).unwrap();
    assert_eq!(bytes.len(), 158);
    assert_eq!(line(&S), "12 3 clean\n");
    let read = read_table(&bytes).unwrap();
    assert_eq!(read.head, read_sheet(&S).unwrap().head);
    assert_eq!(
        read.kinds,
        [(1, 1), (4, 4), (8, 8)].map(|(size, alignment)| TableKind { size, alignment })
    );
}

#[test]
fn states_of_s() {
    let states = allocation_states(&read_sheet(&S).unwrap()).unwrap();
    let full = [0, 1, 4, 2, 5, 3, 6, 7].map(|remainder| (0b1111, remainder));
    assert_eq!(
        states[..4],
        [(0b0000, 0), (0b0001, 0), (0b0011, 0), (0b0111, 0)]
    );
    assert_eq!(states[4..], full);
}

#[test]
fn line_of_s_with_double_without_stack() {
    let sheet = s_with_double(|double| double.flags = 0);
    assert_eq!(line(&sheet), "12 3 fault 1 3 0 2 2\n");
}

#[test]
fn least_offset() {
    let table = table(
        [0, 4, 8, 2],
        &[[5, 1], [4, 4]],
        &[&[[2, 0, 5, 0], [2, 4, 4, 0]]],
    );
    let placed = Placed {
        records: [stack(0, 5), stack(12, 4)].concat(),
        count: 2,
        p: 16,
    };
    assert_eq!(place_by_table(&table, &[0, 1], ROOM), Ok(placed));
}

#[test]
fn offset_with_the_residue_at_p_is_not_skipped() {
    let table = table([0, 4, 8, 1], &[[8, 4]], &[&[[2, 4, 8, 0]]]);
    let placed = Placed {
        records: [stack(4, 8), stack(12, 8)].concat(),
        count: 2,
        p: 20,
    };
    assert_eq!(place_by_table(&table, &[0, 0], ROOM), Ok(placed));
}

#[test]
fn shortest_inputs() {
    assert_eq!(line(&hex("00")), "refused 1\n");
    assert_eq!(line(&hex("00 00")), "refused 3\n");
    assert_eq!(line(&hex("00 01 02")), "refused 2\n");
}

#[test]
fn four_hundred_arguments() {
    let table = build(&S, 158).unwrap();
    let placed = place_by_rules(&S, &[DOUBLE; 400], ROOM).unwrap();
    assert_eq!(
        (placed.count, placed.p, placed.records.len()),
        (400, 398 * 8, ROOM)
    );
    assert_eq!(placed.records[ROOM - 6..], [2, 0, 0, 0x0C, 0x68, 8]);
    assert_eq!(place_by_table(&table, &[DOUBLE; 400], ROOM), Ok(placed));

    let refusal = Refusal {
        number: 8,
        position: 0,
        fault: 0,
    };
    assert_eq!(place_by_rules(&S, &[DOUBLE; 401], ROOM + 6), Err(refusal));
    assert_eq!(
        place_by_table(&table, &[DOUBLE; 401], ROOM + 6),
        Err(refusal)
    );
}

#[test]
fn seven_and_eight_private_registers() {
    assert_eq!(allocation_states(&private_registers(7)).unwrap().len(), 128);
    assert_eq!(line(&private_registers(7).bytes()), "128 7 clean\n");
    let refusal = Refusal {
        number: 11,
        position: 0,
        fault: 0,
    };
    assert_eq!(allocation_states(&private_registers(8)), Err(refusal));
    assert_eq!(build(&private_registers(8).bytes(), 1 << 16), Err(refusal));
    assert_eq!(line(&private_registers(8).bytes()), "refused 11\n");
}

#[test]
fn exactly_two_hundred_states() {
    // Kind 3 takes its registers one by one and only then meets the 16 remainders, and each of
    // the others doubles the number of states by its private register.
    let built = |registers: u8| {
        let mut sheet = private_registers(4);
        sheet.head.registers = 3 + registers;
        sheet.head.modulus = 16;
        sheet.kinds[..3].iter_mut().for_each(|kind| kind.flags = 0);
        sheet.kinds[3].starts = (3..3 + registers).collect();
        build(&sheet.bytes(), 6424)
    };
    let table = read_table(&built(9).unwrap()).unwrap();
    assert_eq!(table.rows.len(), 8 * (9 + 16));
    assert_eq!(built(10).map_err(|refusal| refusal.number), Err(11));
}

#[test]
fn register_given_far_apart() {
    let stack = [2, 0, 4, 2];
    let rows: [&[[u8; 4]]; 3] = [
        &[[1, 0, 1, 1], [2, 0, 4, 0]],
        &[stack, stack],
        &[[2, 0, 4, 2], [1, 0, 1, 0]],
    ];
    let table = table([1, 4, 4, 2], &[[4, 4], [4, 4]], &rows);
    assert_eq!(judge(&table, 6), Ok(fault(2, &[0, 0, 1])));
}

#[test]
fn bad_row_that_no_list_reaches() {
    let table = table([1, 4, 4, 1], &[[4, 4]], &[&[[2, 0, 4, 0]], &[[0, 0, 0, 0]]]);
    assert_eq!(judge(&table, 4), Ok(Verdict::Clean));
}

#[test]
fn registers_given_once_each() {
    let table = table(
        [2, 4, 4, 2],
        &[[4, 4], [4, 4]],
        &[
            &[[1, 0, 1, 1], [2, 0, 4, 0]],
            &[[2, 0, 4, 1], [1, 1, 1, 2]],
            &[[2, 0, 4, 2], [2, 0, 4, 2]],
        ],
    );
    assert_eq!(judge(&table, 6), Ok(Verdict::Clean));
}

#[test]
fn double_in_three_registers() {
    assert_faulty(&first_double_in(3), 3, &[0]);
}

#[test]
fn double_in_two_registers() {
    let table = first_double_in(2);
    assert_eq!(judge(&table, 4), Ok(Verdict::Clean));
    let placed = Placed {
        records: [registers(0, 2), stack(0, 8)].concat(),
        count: 2,
        p: 8,
    };
    assert_eq!(place_by_table(&table, &[0, 0], ROOM), Ok(placed));
}

#[test]
fn double_in_one_register() {
    assert_faulty(&first_double_in(1), 3, &[0]);
}

#[test]
fn empty_run_is_what_no_size_needs() {
    assert_judged([1, 1, 0, 0], fault(3, &[0]));
    assert_faulty(&first_double_in(0), 3, &[0]);
}

#[test]
fn given_register_comes_before_a_wrong_count() {
    // Kind 0 is given register 3. Then kind 1, which needs two registers, is given one or three, up
    // to that register or just short of it. Where it is three, only the one too many was given.
    let after = |first, count| {
        table(
            [4, 4, 4, 2],
            &[[4, 4], [8, 4]],
            &[
                &[[1, 3, 1, 1], [2, 0, 8, 0]],
                &[[2, 0, 4, 1], [1, first, count, 1]],
            ],
        )
    };
    for count in [1, 3] {
        assert_faulty(&after(4 - count, count), 2, &[0, 1]);
        assert_faulty(&after(3 - count, count), 3, &[0, 1]);
    }
}
