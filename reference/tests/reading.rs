//! 01, "Bytes of a sheet and of a table" and the order in which their refusals come.

use reference::samples::{self, hex, spoil, with_length, Most, Xorshift, S};
use reference::{
    build, judge, place_by_rules, place_by_table, read_sheet, read_table, row, Refusal,
};

const MOST: Most = Most {
    registers: 16,
    kinds: 8,
    states: 6,
};

const ROOM: usize = 1 << 16;

/// One kind and two states, each byte of which can be told right or wrong by itself.
fn small_table() -> Vec<u8> {
    hex("00 10 01 02 04 08 01 04 04 02 01 00 01 01 02 04 04 00")
}

fn number<T>(result: Result<T, Refusal>) -> u8 {
    result.map_or_else(|refusal| refusal.number, |_| 0)
}

fn sheet_number(body: &str) -> u8 {
    number(read_sheet(&with_length(&hex(body))))
}

fn table_number(body: &str) -> u8 {
    number(read_table(&with_length(&hex(body))))
}

/// The number for S with the byte at one place changed, or 0 where it is still a sheet.
fn number_of_s_changed(at: usize, value: u8) -> u8 {
    let number = |right: bool, otherwise| if right { 0 } else { otherwise };
    match at {
        0..=1 => number(value == S[at], 1),
        2 => number(value == 1, 2),
        3 if value > 16 => 4,
        3 => number(value >= 4, 5),
        4 if matches!(value, 1 | 2) => 5,
        4 => number(matches!(value, 4 | 8), 4),
        5 if matches!(value, 1 | 2 | 4) => 5,
        5 => number(matches!(value, 8 | 16), 4),
        6 => match value {
            0 | 9.. => 4,
            1 | 2 => 6,
            3 => 0,
            4..=8 => 3,
        },
        7 | 15 => number((1..=4).contains(&value), 5),
        8 | 16 | 24 => number(matches!(value, 1 | 2 | 4 | 8), 5),
        9 | 17 | 25 => number(value <= 3, 5),
        10 | 18 => number(value == 4, 5),
        11..=14 | 19..=22 => number(value <= 3, 5),
        23 => number((1..=8).contains(&value), 5),
        26 => match value {
            0..=2 => 6,
            3 => 0,
            4..=16 => 3,
            17.. => 5,
        },
        _ => number(value <= 2, 5),
    }
}

/// The number for the small table with the byte at one place changed, or 0 where it is still a table.
fn number_of_table_changed(at: usize, value: u8) -> u8 {
    let number = |right: bool, otherwise| if right { 0 } else { otherwise };
    match (at, value) {
        (0..=1, _) => number(value == small_table()[at], 1),
        (2, _) => number(value == 1, 2),
        (3, 0) => 7,
        (3, _) => number(value <= 16, 4),
        (4, _) => number(matches!(value, 1 | 2 | 4 | 8), 4),
        (5, 1 | 2) => 5,
        (5, 4) => 7,
        (5, _) => number(matches!(value, 8 | 16), 4),
        (6, 3..=8) => 5,
        (6, _) => number(value == 1, 4),
        (7, _) => number((1..=64).contains(&value), 5),
        (8, _) => number(matches!(value, 1 | 2 | 4 | 8), 5),
        (9, 1) => 7,
        (9, 3..=200) => 3,
        (9, _) => number(value == 2, 4),
        (10, _) => number(matches!(value, 1 | 2), 7),
        (11, _) => number(value <= 1, 7),
        (12, _) => number(value <= 2, 7),
        (14, _) => number(value == 2, 7),
        (15, _) => number(value <= 7, 7),
        (16, _) => 0,
        _ => number(value <= 1, 7),
    }
}

#[test]
fn every_byte_of_s_with_every_value() {
    for at in 0..S.len() {
        for value in 0..=255 {
            let mut sheet = S;
            sheet[at] = value;
            assert_eq!(
                number(read_sheet(&sheet)),
                number_of_s_changed(at, value),
                "byte {at} is {value}"
            );
        }
    }
}

#[test]
fn every_byte_of_a_table_with_every_value() {
    for at in 0..small_table().len() {
        for value in 0..=255 {
            let mut table = small_table();
            table[at] = value;
            assert_eq!(
                number(read_table(&table)),
                number_of_table_changed(at, value),
                "byte {at} is {value}"
            );
        }
    }
}

#[test]
fn every_shorter_and_one_longer() {
    for length in 0..S.len() - 2 {
        assert_eq!(number(read_sheet(&with_length(&S[2..2 + length]))), 3);
        assert_eq!(number(read_sheet(&S[..2 + length])), 1);
    }
    let table = small_table();
    for length in 0..table.len() - 2 {
        assert_eq!(number(read_table(&with_length(&table[2..2 + length]))), 3);
        assert_eq!(number(read_table(&table[..2 + length])), 1);
    }
    assert_eq!(
        number(read_sheet(&with_length(&[&S[2..], &[1]].concat()))),
        6
    );
    assert_eq!(
        number(read_table(&with_length(&[&table[2..], &[1]].concat()))),
        6
    );
}

#[test]
fn length_comes_first() {
    assert_eq!(number(read_sheet(&[])), 1);
    assert_eq!(number(read_sheet(&hex("00"))), 1);
    assert_eq!(number(read_sheet(&hex("00 02 02"))), 1);
    assert_eq!(number(read_sheet(&hex("01 01 02"))), 1);
    assert_eq!(number(read_table(&hex("00 00 02"))), 1);
    // The first byte of the length counts by 256.
    assert_eq!(
        number(read_sheet(&[&hex("01 00 02")[..], &[0; 255]].concat())),
        2
    );
}

#[test]
fn wrong_value_comes_before_a_later_missing_byte() {
    assert_eq!(sheet_number("02"), 2);
    assert_eq!(sheet_number("01 11"), 4);
    assert_eq!(sheet_number("01 04 03"), 4);
    assert_eq!(sheet_number("01 04 04 20"), 4);
    assert_eq!(sheet_number("01 04 04 08 00"), 4);
    assert_eq!(sheet_number("01 04 04 08 01 41"), 5);
    assert_eq!(sheet_number("01 04 04 08 01 08 10"), 5);
    assert_eq!(sheet_number("01 04 04 08 01 08 08 04"), 5);
    assert_eq!(sheet_number("01 04 04 08 01 08 08 01 11"), 5);
    assert_eq!(sheet_number("01 04 04 08 01 08 08 01 02 03"), 5);
    assert_eq!(table_number("01 04 04 08 01 08 08 C9"), 4);
}

#[test]
fn missing_byte_comes_before_a_later_wrong_value() {
    // The second kind is cut off, and what would stand after it is never looked at.
    assert_eq!(sheet_number("01 04 04 08 02 08 08 01 00 08"), 3);
    assert_eq!(table_number("01 04 04 08 02 08 08 08"), 3);
}

#[test]
fn left_over_comes_last() {
    assert_eq!(sheet_number("01 04 04 08 01 08 08 01 00 FF"), 6);
    assert_eq!(sheet_number("01 04 04 08 01 08 08 01 01 03 FF"), 5);
    assert_eq!(table_number("01 01 04 04 01 04 04 01 02 00 04 00 FF"), 6);
    assert_eq!(table_number("01 01 04 04 01 04 04 01 02 00 04 01 FF"), 7);
}

#[test]
fn transition_is_tested_when_its_four_bytes_are_there() {
    assert_eq!(table_number("01 01 04 04 01 04 04 01 03"), 3);
    assert_eq!(table_number("01 01 04 04 01 04 04 01 03 00 04"), 3);
    assert_eq!(table_number("01 01 04 04 01 04 04 01 03 00 04 00"), 7);
    assert_eq!(table_number("01 01 04 04 01 04 04 02 03 00 04 00"), 7);
    assert_eq!(
        table_number("01 01 04 04 01 04 04 02 02 00 04 00 03 00 00"),
        3
    );
}

#[test]
fn no_place_has_zeros() {
    assert_eq!(
        table_number("01 01 04 04 01 04 04 02 00 00 00 00 00 00 00 00"),
        0
    );
    assert_eq!(
        table_number("01 01 04 04 01 04 04 02 00 01 00 00 00 00 00 00"),
        7
    );
    assert_eq!(
        table_number("01 01 04 04 01 04 04 02 00 00 01 00 00 00 00 00"),
        7
    );
    assert_eq!(
        table_number("01 01 04 04 01 04 04 02 00 00 00 01 00 00 00 00"),
        7
    );
}

#[test]
fn run_ends_at_most_at_n() {
    let last = "01 03 04 04 01 04 04 01 01";
    assert_eq!(table_number(&format!("{last} 00 03 00")), 0);
    assert_eq!(table_number(&format!("{last} 02 01 00")), 0);
    assert_eq!(table_number(&format!("{last} 03 00 00")), 0);
    assert_eq!(table_number(&format!("{last} 03 01 00")), 7);
    assert_eq!(table_number(&format!("{last} 04 00 00")), 7);
    assert_eq!(table_number(&format!("{last} FF 01 00")), 7);
}

#[test]
fn kind_too_large_for_the_registers_has_no_start() {
    assert_eq!(sheet_number("01 10 01 08 01 40 08 01 00"), 0);
    assert_eq!(sheet_number("01 10 01 08 01 40 08 01 01 00"), 5);
    assert_eq!(sheet_number("01 10 04 08 01 40 08 01 01 00"), 0);
    assert_eq!(sheet_number("01 10 04 08 01 3D 08 01 01 00"), 0);
    assert_eq!(sheet_number("01 0F 04 08 01 3D 08 01 01 00"), 5);
    assert_eq!(sheet_number("01 10 01 08 01 02 08 01 01 FF"), 5);
}

#[test]
fn reading_answers_every_field() {
    let random = &mut Xorshift::new(1);
    for _ in 0..500 {
        let sheet = samples::sheet(random, MOST);
        assert_eq!(read_sheet(&sheet.bytes()), Ok(sheet));
        let table = samples::table(random, MOST);
        assert_eq!(read_table(&table.bytes()), Ok(table));
    }
}

#[test]
fn spoiled_sheets() {
    let random = &mut Xorshift::new(2);
    let mut seen = [0; 7];
    for _ in 0..3000 {
        let sheet = samples::sheet(random, MOST).bytes();
        let spoiled = spoil(random, &sheet);
        let read = read_sheet(&spoiled);
        seen[usize::from(number(read.clone()))] += 1;
        match read {
            Ok(sheet) => assert_eq!(sheet.bytes(), spoiled),
            Err(refusal) => {
                assert_eq!(place_by_rules(&spoiled, &[255; 401], 0), Err(refusal));
                assert_eq!(build(&spoiled, 0), Err(refusal));
            }
        }
    }
    assert!(seen.iter().all(|&count| count > 20), "{seen:?}");
}

#[test]
fn spoiled_tables() {
    let random = &mut Xorshift::new(3);
    let mut seen = [0; 8];
    for _ in 0..3000 {
        let table = samples::table(random, MOST).bytes();
        let spoiled = spoil(random, &table);
        let read = read_table(&spoiled);
        seen[usize::from(number(read.clone()))] += 1;
        match read {
            Ok(table) => assert_eq!(table.bytes(), spoiled),
            Err(refusal) => {
                assert_eq!(place_by_table(&spoiled, &[255; 401], 0), Err(refusal));
                assert_eq!(judge(&spoiled, 0), Err(refusal));
                assert_eq!(row(&spoiled, 200), Err(refusal));
            }
        }
    }
    assert!(seen.iter().all(|&count| count > 20), "{seen:?}");
}

#[test]
fn rows_are_the_bytes_of_their_state() {
    let random = &mut Xorshift::new(4);
    for _ in 0..200 {
        let table = samples::table(random, MOST);
        let bytes = table.bytes();
        for (state, wanted) in (0..).zip(&table.rows) {
            let wanted: Vec<u8> = wanted
                .iter()
                .flat_map(|step| [step.form, step.a, step.b, step.next])
                .collect();
            assert_eq!(bytes[row(&bytes, state).unwrap()], wanted);
        }
        let first = 2 + 1 + 4 + 2 * table.kinds.len() + 1;
        assert_eq!(row(&bytes, 0).unwrap().start, first);
    }
}

#[test]
fn row_of_no_state() {
    let bytes = build(&S, ROOM).unwrap();
    assert_eq!(row(&bytes, 11), Ok(146..158));
    let refusal = Refusal {
        number: 13,
        position: 0,
        fault: 0,
    };
    for state in [12, 13, 256, 1 << 32, u64::MAX] {
        assert_eq!(row(&bytes, state), Err(refusal));
    }
}
