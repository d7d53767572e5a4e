//! Placing by the rules and by a table: the examples of document 01, offsets from every p up to 64, and seeded input, the library beside the second program.

use comparison::{compare, damage, refused, rounds, Numbers, MOST};
use reference::samples::{self, Xorshift, ALIGNMENTS, S};
use reference::{Head, Placed, Refusal, Sheet, SheetKind, Table, TableKind, Transition};

/// Lists of these lengths are placed by seeded sheets and tables. The library makes the records of up to 32 arguments in other
/// memory than those of more.
const LENGTHS: [usize; 7] = [0, 1, 20, 32, 33, 400, 401];

/// A record of six bytes, as 01 lays it out.
fn record(form: u8, at: u8, count: u8) -> [u8; 6] {
    [form, 0, 0, 0, at, count]
}

/// Asserts where the rules place a list, with five bytes more than needed.
fn places(sheet: &[u8], kinds: &[u8], records: &[[u8; 6]], p: u32) {
    let placed = compare::place_by_rules(sheet, kinds, 6 * kinds.len() + 5)
        .expect("every argument has a place");
    assert_eq!(placed.records, records.concat());
    assert_eq!((placed.count, placed.p), (kinds.len(), p));
}

/// S without stack for double, and its table.
fn stackless() -> (Vec<u8>, Vec<u8>) {
    let sheet = samples::s_with_double(|double| double.flags = 0);
    let table = reference::build(&sheet, 158).expect("its table has 158 bytes");
    (sheet, table)
}

/// A list of exactly so many known kinds.
fn list(random: &mut Xorshift, kinds: u8, length: usize) -> Vec<u8> {
    (0..length).map(|_| random.within(0..=kinds - 1)).collect()
}

/// A list and the room lent for it: mostly enough, now and then with an unknown kind or too little room.
fn request(random: &mut Xorshift, kinds: u8, length: usize) -> (Vec<u8>, usize) {
    let mut list = list(random, kinds, length);
    let mut room = 6 * length + random.below(3) * 5;
    if random.one_in(6) && length > 0 {
        let at = random.below(length);
        list[at] = random.pick(&[kinds, kinds + 1, 255]);
    }
    if random.one_in(10) && length > 0 {
        room = random.below(6 * length);
    }
    (list, room)
}

/// A head without registers.
fn without_registers(modulus: u8, kinds: u8) -> Head {
    Head {
        registers: 0,
        width: 1,
        modulus,
        kinds,
    }
}

/// 01's words for a stack offset: the least, at least p, with that remainder.
fn least(p: u8, modulus: u8, residue: u8) -> u8 {
    (p..)
        .find(|offset| offset % modulus == residue)
        .expect("each remainder comes again")
}

/// Asserts where the one byte of kind 1 goes, after one argument of kind 0 that takes p bytes, or after none where p is 0.
fn goes_to(offset: u8, p: u8, place: impl FnOnce(&[u8]) -> Result<Placed, Refusal>) {
    let kinds: &[u8] = if p == 0 { &[1] } else { &[0, 1] };
    let placed = place(kinds).expect("each has a place");
    let last = &placed.records[placed.records.len() - 6..];
    assert_eq!(last, record(2, offset, 1), "from p = {p}");
    assert_eq!(placed.p, u32::from(offset) + 1);
}

#[test]
fn p1_to_p5_and_p7() {
    let closing = samples::s_with_double(|double| double.flags = 3);
    let even = samples::s_with_double(|double| (double.flags, double.starts) = (3, vec![0, 2]));
    let [r0, r1, r2, r3] = [0, 1, 2, 3].map(|register| record(1, register, 1));
    places(&S, &[], &[], 0);
    places(&S, &[0, 1, 1, 2], &[r0, r1, r2, record(2, 0, 8)], 8);
    let pairs = [record(1, 0, 2), record(1, 2, 2)];
    places(
        &S,
        &[2, 2, 0, 1],
        &[pairs[0], pairs[1], record(2, 0, 1), record(2, 4, 4)],
        8,
    );
    places(&S, &[0, 1, 1, 2, 1], &[r0, r1, r2, record(2, 0, 8), r3], 8);
    places(
        &closing,
        &[0, 1, 1, 2, 1],
        &[r0, r1, r2, record(2, 0, 8), record(2, 8, 4)],
        12,
    );
    places(&even, &[1, 2, 1], &[r0, pairs[1], record(2, 0, 4)], 4);
}

#[test]
fn p6_is_refused_at_its_position() {
    let (sheet, table) = stackless();
    let expected = Err(refused(10, 2, 1));
    assert_eq!(compare::place_by_rules(&sheet, &[0, 2, 2], 18), expected);
    assert_eq!(compare::place_by_table(&table, &[0, 2, 2], 18), expected);
}

#[test]
fn p8_to_p12_walked() {
    let walk = |transition, kinds: &[u8]| {
        compare::place_by_table(&samples::one_step_table(transition).bytes(), kinds, 60)
    };
    assert_eq!(walk([1, 0, 1, 0], &[0, 0]), Err(refused(10, 1, 2)));
    assert_eq!(walk([2, 0, 4, 0], &[0; 10]).map(|placed| placed.p), Ok(40));
    assert_eq!(walk([2, 0, 3, 0], &[0]), Err(refused(10, 0, 3)));
    assert_eq!(walk([2, 2, 4, 0], &[0]), Err(refused(10, 0, 4)));
    assert_eq!(walk([2, 2, 3, 0], &[0]), Err(refused(10, 0, 3)));
}

#[test]
fn the_limit_is_400_arguments() {
    let table = reference::build(&S, 158).expect("the table of S has 158 bytes");
    // A count of more than two bytes is not taken for its remainder.
    for (count, number) in [
        (400, None),
        (401, Some(8)),
        (65_536, Some(8)),
        (65_936, Some(8)),
    ] {
        let kinds = vec![1; count];
        let refusal = number.map(|number| refused(number, 0, 0));
        assert_eq!(
            compare::place_by_rules(&S, &kinds, 6 * count).err(),
            refusal
        );
        assert_eq!(
            compare::place_by_table(&table, &kinds, 6 * count).err(),
            refusal
        );
    }
}

#[test]
fn refusals_come_in_order() {
    let (sheet, table) = stackless();
    let mut long = vec![2; 401];
    long[3] = 9;
    let ordered: [(&str, &[u8], usize, Refusal); 4] = [
        ("8 before 12 and 9", &long, 0, refused(8, 0, 0)),
        ("12 before 9", &[2, 2, 2, 9], 23, refused(12, 0, 0)),
        (
            "9 before an earlier 10",
            &[2, 2, 2, 9],
            24,
            refused(9, 3, 0),
        ),
        ("10 last", &[2, 2, 2, 1], 24, refused(10, 2, 1)),
    ];
    for (order, kinds, room, refusal) in ordered {
        assert_eq!(
            compare::place_by_rules(&sheet, kinds, room),
            Err(refusal),
            "{order}"
        );
        assert_eq!(
            compare::place_by_table(&table, kinds, room),
            Err(refusal),
            "{order}"
        );
        let short = Err(refused(1, 0, 0));
        assert_eq!(
            compare::place_by_rules(&sheet[..29], kinds, room),
            short,
            "1 before {order}"
        );
        assert_eq!(
            compare::place_by_table(&table[..157], kinds, room),
            short,
            "1 before {order}"
        );
    }
}

/// Every step skips 15 bytes before its 64: the residues go down by one, round and round.
#[test]
fn the_largest_p() {
    let step = |state: u8| Transition {
        form: 2,
        a: 15 - state,
        b: 64,
        next: (state + 1) % 16,
    };
    let table = Table {
        head: without_registers(16, 1),
        kinds: vec![TableKind {
            size: 64,
            alignment: 1,
        }],
        rows: (0..16).map(|state| vec![step(state)]).collect(),
    };
    let placed = compare::place_by_table(&table.bytes(), &[0; 400], 2400).expect("400 fit");
    assert_eq!(placed.p, 31_600);
    assert_eq!(placed.records[2394..], [2, 0, 0, 0x7B, 0x30, 64]);
}

#[test]
fn every_aligned_offset() {
    let kind = |size, alignment| SheetKind {
        size,
        alignment,
        flags: 1,
        starts: vec![],
    };
    for (p, alignment) in (0..=64).flat_map(|p| ALIGNMENTS.map(|alignment| (p, alignment))) {
        let sheet = Sheet {
            head: without_registers(16, 2),
            kinds: vec![kind(p.max(1), 1), kind(1, alignment)],
        };
        goes_to(least(p, alignment, 0), p, |kinds| {
            compare::place_by_rules(&sheet.bytes(), kinds, 12)
        });
    }
}

#[test]
fn every_residue() {
    let kind = |size| TableKind { size, alignment: 1 };
    let step = |a, b| Transition {
        form: 2,
        a,
        b,
        next: 0,
    };
    for (p, modulus) in (0..=64).flat_map(|p| ALIGNMENTS.map(|modulus| (p, modulus))) {
        for residue in 0..modulus {
            let table = Table {
                head: without_registers(modulus, 2),
                kinds: vec![kind(p.max(1)), kind(1)],
                rows: vec![vec![step(0, p.max(1)), step(residue, 1)]],
            };
            goes_to(least(p, modulus, residue), p, |kinds| {
                compare::place_by_table(&table.bytes(), kinds, 12)
            });
        }
    }
}

#[test]
fn seeded_sheets_place_alike() {
    let mut random = Xorshift::new(11);
    let mut numbers = [(); LENGTHS.len()].map(|_| Numbers::default());
    for _ in 0..rounds(1200) {
        let sheet = samples::sheet(&mut random, MOST);
        for (length, numbers) in LENGTHS.into_iter().zip(&mut numbers) {
            let (kinds, room) = request(&mut random, sheet.head.kinds, length);
            numbers.note(&compare::place_by_rules(&sheet.bytes(), &kinds, room));
        }
    }
    let [none, placed @ .., more] = numbers;
    none.assert_reached(&[0], 1200);
    for numbers in placed {
        numbers.assert_reached(&[0, 9, 10, 12], 20);
    }
    more.assert_reached(&[8], 1200);
}

#[test]
fn seeded_tables_place_alike() {
    let mut random = Xorshift::new(12);
    let mut numbers = [(); LENGTHS.len()].map(|_| Numbers::default());
    let mut faults = [0; 5];
    for _ in 0..rounds(2500) {
        let table = samples::table(&mut random, MOST);
        for (length, numbers) in LENGTHS.into_iter().zip(&mut numbers) {
            let (kinds, room) = request(&mut random, table.head.kinds, length);
            let answer = compare::place_by_table(&table.bytes(), &kinds, room);
            numbers.note(&answer);
            faults[usize::from(answer.err().map_or(0, |refusal| refusal.fault))] += 1;
        }
    }
    let [none, placed @ .., more] = numbers;
    none.assert_reached(&[0], 2500);
    for numbers in placed {
        numbers.assert_reached(&[0, 9, 10, 12], 20);
    }
    more.assert_reached(&[8], 2500);
    assert!(faults.iter().all(|&count| count > 100), "{faults:?}");
}

#[test]
fn damaged_files_place_alike() {
    let mut random = Xorshift::new(13);
    let (mut sheets, mut tables) = (Numbers::default(), Numbers::default());
    for _ in 0..rounds(10_000) {
        let sheet = samples::sheet(&mut random, MOST);
        let (kinds, room) = request(&mut random, sheet.head.kinds, 6);
        let damaged = damage(&mut random, &sheet.bytes());
        sheets.note(&compare::place_by_rules(&damaged, &kinds, room));
        let table = samples::table(&mut random, MOST);
        let (kinds, room) = request(&mut random, table.head.kinds, 6);
        let damaged = damage(&mut random, &table.bytes());
        tables.note(&compare::place_by_table(&damaged, &kinds, room));
    }
    sheets.assert_reached(&[0, 1, 2, 3, 4, 5, 6, 9, 10, 12], 50);
    tables.assert_reached(&[0, 1, 2, 3, 4, 5, 6, 7, 9, 10, 12], 50);
}
