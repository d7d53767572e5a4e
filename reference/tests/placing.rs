//! 01, "Placing by the rules" and "Placing by a table": both walks told again in the words of 01.

use reference::samples::{self, list, Most, Xorshift};
use reference::{
    judge, place_by_rules, place_by_table, Placed, Refusal, Sheet, SheetKind, Table, Verdict,
};

const MOST: Most = Most {
    registers: 16,
    kinds: 8,
    states: 20,
};
const ROOM: usize = 6 * 400;

fn record(form: u8, at: u32, count: u8) -> Vec<u8> {
    [&[form], &at.to_be_bytes()[..], &[count]].concat()
}

/// The index of the start taken, if any, where `available` tells of each register.
fn start_taken(available: &[bool], kind: &SheetKind, needed: usize) -> Option<usize> {
    let free = |start: u8| (0..needed).all(|more| available[usize::from(start) + more]);
    (0..kind.starts.len()).find(|&index| free(kind.starts[index]))
}

fn rules_in_words(sheet: &Sheet, kinds: &[u8]) -> Result<Placed, Refusal> {
    let mut available = vec![true; usize::from(sheet.head.registers)];
    let (mut records, mut p) = (Vec::new(), 0);
    for (position, &number) in kinds.iter().enumerate() {
        let kind = &sheet.kinds[usize::from(number)];
        let needed = (0..).find(|k| k * sheet.head.width >= kind.size).unwrap();
        let taken = start_taken(&available, kind, usize::from(needed));
        if let Some(index) = taken {
            records.extend(record(1, u32::from(kind.starts[index]), needed));
        } else if kind.flags == 1 || kind.flags == 3 {
            let offset = (p..)
                .find(|offset| offset % u32::from(kind.alignment) == 0)
                .unwrap();
            records.extend(record(2, offset, kind.size));
            p = offset + u32::from(kind.size);
        } else {
            return Err(Refusal {
                number: 10,
                position,
                fault: 1,
            });
        }
        for (index, &start) in kind.starts.iter().enumerate() {
            let closed = kind.flags >= 2 && taken.is_none_or(|taken| index < taken);
            if closed || taken == Some(index) {
                available[usize::from(start)..usize::from(start + needed)].fill(false);
            }
        }
    }
    Ok(Placed {
        records,
        count: kinds.len(),
        p,
    })
}

/// The answer for a list without a fault.
fn table_in_words(table: &Table, kinds: &[u8]) -> Placed {
    let (mut records, mut p, mut state) = (Vec::new(), 0, 0);
    for &kind in kinds {
        let step = &table.rows[state][usize::from(kind)];
        if step.form == 1 {
            records.extend(record(1, u32::from(step.a), step.b));
        } else {
            let has_residue =
                |offset: &u32| offset % u32::from(table.head.modulus) == step.a.into();
            let offset = (p..).find(has_residue).unwrap();
            records.extend(record(2, offset, step.b));
            p = offset + u32::from(step.b);
        }
        state = usize::from(step.next);
    }
    Placed {
        records,
        count: kinds.len(),
        p,
    }
}

#[test]
fn rules_agree_with_their_words() {
    let random = &mut Xorshift::new(12);
    let (mut placed, mut refused) = (0, 0);
    for _ in 0..4000 {
        let sheet = samples::sheet(random, MOST);
        let kinds = list(random, sheet.head.kinds, 30);
        let answer = place_by_rules(&sheet.bytes(), &kinds, ROOM);
        assert_eq!(
            answer,
            rules_in_words(&sheet, &kinds),
            "{sheet:?} {kinds:?}"
        );
        match answer {
            Ok(_) => placed += 1,
            Err(_) => refused += 1,
        }
    }
    assert!(
        placed > 500 && refused > 500,
        "{placed} placed, {refused} refused"
    );
}

#[test]
fn clean_tables_agree_with_their_words() {
    let random = &mut Xorshift::new(13);
    let mut clean = 0;
    while clean < 100 {
        let table = samples::table(random, MOST);
        let bytes = table.bytes();
        if judge(&bytes, 40) == Ok(Verdict::Clean) {
            clean += 1;
            let kinds = list(random, table.head.kinds, 400);
            assert_eq!(
                place_by_table(&bytes, &kinds, ROOM),
                Ok(table_in_words(&table, &kinds))
            );
        }
    }
}
