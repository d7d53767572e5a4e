//! Building tables: the examples of document 01 and seeded sheets, the library beside the second program.

use comparison::{compare, damage, refused, rounds, Numbers, MOST};
use reference::samples::{self, private_registers, Xorshift, S};
use reference::{read_table, Head, Sheet, SheetKind};
use teaselram::LONGEST_TABLE;

/// How many states the table of a sheet has.
fn states(sheet: &Sheet) -> usize {
    let table = compare::build(&sheet.bytes(), LONGEST_TABLE).expect("the sheet has a table");
    read_table(&table)
        .expect("a built table is read")
        .rows
        .len()
}

/// The table of a sheet by the library alone, and the room as the library left it.
fn built(sheet: &[u8]) -> Option<Vec<u8>> {
    let mut table = vec![0; LONGEST_TABLE];
    let built = teaselram::build(sheet, &mut table).ok()?;
    table.truncate(built.length);
    Some(table)
}

/// A kind of one byte that takes the first free of some registers, and the stack when they are gone.
fn bytes_in(starts: impl IntoIterator<Item = u8>) -> SheetKind {
    SheetKind {
        size: 1,
        alignment: 1,
        flags: 1,
        starts: starts.into_iter().collect(),
    }
}

/// A sheet with w = A = 1, so that p mod A is always 0.
fn sheet(registers: u8, kinds: Vec<SheetKind>) -> Sheet {
    let head = Head {
        registers,
        width: 1,
        modulus: 1,
        kinds: kinds.len() as u8,
    };
    Sheet { head, kinds }
}

/// Two kinds that use up four registers each and three that have one each: 5 * 5 * 2 * 2 * 2 = 200 states.
fn at_the_limit() -> Vec<SheetKind> {
    [0..4, 4..8, 8..9, 9..10, 10..11].map(bytes_in).to_vec()
}

#[test]
fn s_has_12_states_and_158_bytes() {
    let table = compare::build(&S, 200).expect("S has a table");
    assert_eq!(table.len(), 158);
    assert_eq!(
        teaselram::read_table(&table).map(|head| head.states),
        Ok(12)
    );
    assert_eq!(table[2..14], [1, 4, 4, 8, 3, 1, 1, 4, 4, 8, 8, 12]);
}

/// In these states all goes to the stack, and a char shows the remainder, as it is put at p itself.
#[test]
fn states_4_to_11_of_s() {
    let table = built(&S).expect("S has a table");
    let rows = (4..12).map(|state| teaselram::row(&table, state).expect("S has this state"));
    for (row, remainder) in rows.zip([0, 1, 4, 2, 5, 3, 6, 7]) {
        assert!(
            row.chunks(4).all(|transition| transition[0] == 2),
            "{row:?}"
        );
        assert_eq!(row[..3], [2, remainder, 1]);
    }
}

#[test]
fn private_registers_to_the_limit() {
    for (kinds, count) in [(1, 2), (2, 4), (7, 128)] {
        assert_eq!(states(&private_registers(kinds)), count);
    }
    let eight = private_registers(8).bytes();
    for room in [0, LONGEST_TABLE] {
        let refusal = Err(refused(11, 0, 0));
        assert_eq!(compare::build(&eight, room), refusal, "11 before 12");
    }
}

#[test]
fn the_limit_is_200_states() {
    assert_eq!(states(&sheet(11, at_the_limit())), 200);
    // A kind that needs all twelve registers finds them free only at the start: one state more.
    let mut kinds = at_the_limit();
    kinds.push(SheetKind {
        size: 12,
        ..bytes_in([0])
    });
    let one_more = sheet(12, kinds).bytes();
    assert_eq!(
        compare::build(&one_more, LONGEST_TABLE),
        Err(refused(11, 0, 0))
    );
}

#[test]
fn the_longest_table() {
    let mut kinds = at_the_limit();
    kinds.resize(8, bytes_in([]));
    let table = built(&sheet(11, kinds).bytes()).expect("it has 200 states");
    assert_eq!(table.len(), LONGEST_TABLE);
}

#[test]
fn the_room_is_the_table_s_length() {
    for (bytes, length) in [(S.to_vec(), 158), (private_registers(7).bytes(), 3606)] {
        assert_eq!(
            compare::build(&bytes, length).map(|table| table.len()),
            Ok(length)
        );
        for room in [0, 1, length - 1] {
            assert_eq!(compare::build(&bytes, room), Err(refused(12, 0, 0)));
        }
        assert_eq!(
            compare::build(&bytes[..12], 0),
            Err(refused(1, 0, 0)),
            "1 before 12"
        );
    }
}

#[test]
fn seeded_sheets_build_alike() {
    let mut random = Xorshift::new(21);
    let mut numbers = Numbers::default();
    for _ in 0..rounds(3000) {
        let sheet = samples::sheet(&mut random, MOST).bytes();
        let answer = compare::build(&sheet, LONGEST_TABLE);
        if let Ok(table) = &answer {
            numbers.note(&compare::build(&sheet, random.below(table.len())));
        }
        numbers.note(&answer);
    }
    numbers.assert_reached(&[0, 11, 12], 100);
}

#[test]
fn damaged_sheets_build_alike() {
    let mut random = Xorshift::new(22);
    let mut numbers = Numbers::default();
    for _ in 0..rounds(10_000) {
        let sheet = samples::sheet(&mut random, MOST).bytes();
        let room = random.below(2000);
        numbers.note(&compare::build(&damage(&mut random, &sheet), room));
    }
    numbers.assert_reached(&[0, 1, 2, 3, 4, 5, 6, 11, 12], 50);
}

/// Asserts that a sheet and the table built from it answer alike and write the same records.
fn assert_placed_alike(sheet: &[u8], table: &[u8], kinds: &[u8]) {
    let room = 6 * kinds.len();
    let (mut by_rules, mut by_table) = (vec![0xEE; room], vec![0xEE; room]);
    assert_eq!(
        teaselram::place_by_rules(sheet, kinds, &mut by_rules),
        teaselram::place_by_table(table, kinds, &mut by_table),
        "{kinds:?} by {sheet:02X?}"
    );
    assert_eq!(by_rules, by_table, "{kinds:?} by {sheet:02X?}");
}

#[test]
fn built_tables_place_like_their_sheets() {
    let mut random = Xorshift::new(23);
    let mut tables = 0;
    for _ in 0..rounds(1500) {
        let sheet = samples::sheet(&mut random, MOST);
        let Some(table) = built(&sheet.bytes()) else {
            continue;
        };
        tables += 1;
        for longest in [3, 20, 20, 400] {
            let kinds = samples::list(&mut random, sheet.head.kinds, longest);
            assert_placed_alike(&sheet.bytes(), &table, &kinds);
        }
    }
    assert!(tables > 500, "{tables} tables");
}
