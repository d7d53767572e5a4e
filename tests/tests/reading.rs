//! Reading sheets and tables, and asking for kinds and rows: the library beside the second program.

use comparison::{compare, damage, kinds, refused, rounds, Numbers, MOST};
use reference::samples::{self, with_length, Xorshift, S};
use reference::Refusal;

/// The table of S.
fn table_of_s() -> Vec<u8> {
    reference::build(&S, 158).expect("the table of S has 158 bytes")
}

/// Reads bytes as a sheet and as a table.
fn read_both(bytes: &[u8]) -> [Option<Refusal>; 2] {
    [
        compare::read_sheet(bytes).err(),
        compare::read_table(bytes).err(),
    ]
}

#[test]
fn s_and_its_table_are_read() {
    let sheet = teaselram::read_sheet(&S).expect("S is read");
    assert_eq!(
        (sheet.registers, sheet.width, sheet.modulus, sheet.kinds),
        (4, 4, 8, 3)
    );
    assert_eq!(sheet.states, 0);
    let table = teaselram::read_table(&table_of_s()).expect("its table is read");
    assert_eq!(
        table,
        teaselram::Head {
            states: 12,
            ..sheet
        }
    );
}

#[test]
fn short_files() {
    for (bytes, number) in [(&[][..], 1), (&[0], 1), (&[0, 0], 3), (&[0, 1, 2], 2)] {
        assert_eq!(read_both(bytes), [Some(refused(number, 0, 0)); 2]);
    }
}

#[test]
fn longest_files() {
    let bytes = |length: usize| [with_length(&S[2..]), vec![0; length - S.len()]].concat();
    for (length, number) in [(65_536, 1), (65_537, 6), (65_538, 1)] {
        let mut long = bytes(length);
        long[..2].copy_from_slice(&[0xFF, 0xFF]);
        assert_eq!(
            compare::read_sheet(&long).err(),
            Some(refused(number, 0, 0)),
            "{length} bytes"
        );
    }
    // A count of two bytes that is right only by its remainder.
    let mut long = bytes(65_536 + S.len());
    long[..2].copy_from_slice(&S[..2]);
    assert_eq!(compare::read_sheet(&long).err(), Some(refused(1, 0, 0)));
}

#[test]
fn every_byte_with_every_value() {
    let (mut sheets, mut tables) = (Numbers::default(), Numbers::default());
    for value in 0..=255 {
        for at in 0..S.len() {
            let mut sheet = S;
            sheet[at] = value;
            sheets.note(&compare::read_sheet(&sheet));
        }
        for at in 0..table_of_s().len() {
            let mut table = table_of_s();
            table[at] = value;
            tables.note(&compare::read_table(&table));
        }
    }
    sheets.assert_reached(&[0, 1, 2, 3, 4, 5, 6], 1);
    // With fewer states some transition leads to none before a byte is left over.
    tables.assert_reached(&[0, 1, 2, 3, 4, 5, 7], 1);
}

#[test]
fn every_length() {
    fn lengths<T>(whole: &[u8], read: impl Fn(&[u8]) -> Result<T, Refusal>) {
        let number = |bytes: &[u8]| read(bytes).err().map(|refusal| refusal.number);
        for length in 2..whole.len() {
            assert_eq!(number(&whole[..length]), Some(1), "{length} bytes");
            assert_eq!(
                number(&with_length(&whole[2..length])),
                Some(3),
                "{length} bytes"
            );
        }
        assert_eq!(number(whole), None);
        for more in [&[0][..], &[1, 0, 1, 0], &[255; 300]] {
            assert_eq!(number(&[whole, more].concat()), Some(1));
            assert_eq!(number(&with_length(&[&whole[2..], more].concat())), Some(6));
        }
    }
    lengths(&S, compare::read_sheet);
    lengths(&table_of_s(), compare::read_table);
}

#[test]
fn seeded_files_are_read_whole() {
    let mut random = Xorshift::new(1);
    for _ in 0..rounds(2000) {
        let sheet = samples::sheet(&mut random, MOST);
        assert_eq!(compare::read_sheet(&sheet.bytes()), Ok(sheet));
        let table = samples::table(&mut random, MOST);
        assert_eq!(compare::read_table(&table.bytes()), Ok(table));
    }
}

#[test]
fn damaged_files_are_read_alike() {
    let mut random = Xorshift::new(2);
    let (mut sheets, mut tables) = (Numbers::default(), Numbers::default());
    for _ in 0..rounds(20_000) {
        let sheet = samples::sheet(&mut random, MOST).bytes();
        sheets.note(&compare::read_sheet(&damage(&mut random, &sheet)));
        let table = samples::table(&mut random, MOST).bytes();
        tables.note(&compare::read_table(&damage(&mut random, &table)));
    }
    sheets.assert_reached(&[0, 1, 2, 3, 4, 5, 6], 100);
    tables.assert_reached(&[0, 1, 2, 3, 4, 5, 6, 7], 100);
}

#[test]
fn sheets_as_tables_and_tables_as_sheets() {
    let mut random = Xorshift::new(3);
    for _ in 0..rounds(2000) {
        read_both(&samples::sheet(&mut random, MOST).bytes());
        read_both(&samples::table(&mut random, MOST).bytes());
    }
}

#[test]
fn kinds_of_s() {
    let kinds = [(1, 1, 11..15), (4, 4, 19..23), (8, 8, 27..30)];
    for (number, (size, alignment, starts)) in (0..).zip(kinds) {
        let kind = teaselram::sheet_kind(&S, number).expect("S has three kinds");
        let expected = teaselram::SheetKind {
            size,
            alignment,
            flags: 1,
            starts: &S[starts],
        };
        assert_eq!(kind, expected);
        assert!(kind.may_use_stack() && !kind.is_closing());
        assert_eq!(
            teaselram::table_kind(&table_of_s(), number),
            Ok(teaselram::TableKind { size, alignment })
        );
    }
}

#[test]
fn flags_of_a_kind() {
    for flags in 0..4 {
        let sheet = samples::s_with_double(|double| double.flags = flags);
        let kind = teaselram::sheet_kind(&sheet, 2).expect("S has three kinds");
        assert_eq!(kind.flags, flags);
        let meant = (kind.may_use_stack(), kind.is_closing());
        assert_eq!(meant, (flags % 2 == 1, flags >= 2));
    }
}

/// Without starts the last kind's first one would stand after the sheet.
#[test]
fn a_kind_without_starts() {
    let sheet = samples::s_with_double(|double| double.starts.clear());
    let double = compare::sheet_kind(&sheet, 2).expect("S has three kinds");
    assert_eq!(double.starts, []);
}

#[test]
fn kinds_that_there_are_not() {
    let table = table_of_s();
    for kind in kinds::asked(3).filter(|&kind| kind >= 3) {
        assert_eq!(compare::sheet_kind(&S, kind), Err(refused(9, 0, 0)));
        assert_eq!(compare::table_kind(&table, kind), Err(refused(9, 0, 0)));
    }
}

/// A file that is not read has no kinds, whichever is asked for: the reader's number comes before 9.
#[test]
fn the_reader_refuses_before_9() {
    for kind in kinds::asked(3) {
        for (bytes, number) in [(&[][..], 1), (&S[..29], 1), (&[0, 0], 3), (&[0, 1, 2], 2)] {
            let refusal = refused(number, 0, 0);
            assert_eq!(compare::sheet_kind(bytes, kind), Err(refusal));
            assert_eq!(compare::table_kind(bytes, kind), Err(refusal));
        }
    }
}

#[test]
fn every_kind_of_seeded_files() {
    let mut random = Xorshift::new(5);
    for _ in 0..rounds(2000) {
        let sheet = samples::sheet(&mut random, MOST);
        for kind in kinds::asked(sheet.head.kinds) {
            let answer = compare::sheet_kind(&sheet.bytes(), kind).ok();
            assert_eq!(answer.as_ref(), sheet.kinds.get(kind as usize));
        }
        let table = samples::table(&mut random, MOST);
        for kind in kinds::asked(table.head.kinds) {
            let answer = compare::table_kind(&table.bytes(), kind).ok();
            assert_eq!(answer.as_ref(), table.kinds.get(kind as usize));
        }
    }
}

#[test]
fn kinds_of_damaged_files() {
    let mut random = Xorshift::new(6);
    let (mut sheets, mut tables) = (Numbers::default(), Numbers::default());
    for _ in 0..rounds(10_000) {
        let sheet = samples::sheet(&mut random, MOST);
        let kind = random.below(usize::from(sheet.head.kinds) + 2) as u64;
        let damaged = damage(&mut random, &sheet.bytes());
        sheets.note(&compare::sheet_kind(&damaged, kind));
        let table = samples::table(&mut random, MOST);
        let kind = random.below(usize::from(table.head.kinds) + 2) as u64;
        let damaged = damage(&mut random, &table.bytes());
        tables.note(&compare::table_kind(&damaged, kind));
    }
    sheets.assert_reached(&[0, 1, 2, 3, 4, 5, 6, 9], 50);
    tables.assert_reached(&[0, 1, 2, 3, 4, 5, 6, 7, 9], 50);
}

#[test]
fn rows_of_s() {
    let table = table_of_s();
    for state in 0..12 {
        let start = 14 + 12 * state;
        let row = teaselram::row(&table, state as u64);
        assert_eq!(row, Ok(&table[start..start + 12]));
    }
}

#[test]
fn states_that_there_are_not() {
    let table = table_of_s();
    // Some of these fall within the table again where a product or a narrower number wraps round.
    let far = [
        1 << 8,
        1 << 16,
        1 << 32,
        1 << 60,
        (1 << 62) + 1,
        1 << 63,
        u64::MAX,
    ];
    for state in [12, 13, 200].into_iter().chain(far) {
        assert_eq!(compare::row(&table, state), Err(refused(13, 0, 0)));
    }
}

#[test]
fn seeded_rows() {
    let mut random = Xorshift::new(4);
    let mut numbers = Numbers::default();
    for _ in 0..rounds(10_000) {
        let table = samples::table(&mut random, MOST);
        let state = random.below(table.rows.len() + 2) as u64;
        let mut bytes = table.bytes();
        if random.one_in(3) {
            bytes = damage(&mut random, &bytes);
        }
        numbers.note(&compare::row(&bytes, state));
    }
    numbers.assert_reached(&[0, 1, 2, 3, 4, 5, 6, 7, 13], 20);
}
