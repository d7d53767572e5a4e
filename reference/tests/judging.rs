//! 01, "Placing by a table", and 02, W-202: the judge against a search of all lists.

use reference::samples::{self, list, Most, Xorshift};
use reference::{judge, place_by_table, Refusal, Table, Verdict};

const MOST: Most = Most {
    registers: 3,
    kinds: 3,
    states: 3,
};
const TABLES: usize = 6000;
const ROOM: usize = 6 * 400;

/// The first faulty step of a list with its fault, by the words of 01 and 02 and with lists for sets.
fn first_fault(table: &Table, list: &[u8]) -> Option<(usize, u8)> {
    let mut state = 0;
    let mut given: Vec<u8> = Vec::new();
    for (position, &kind) in list.iter().enumerate() {
        let kind = usize::from(kind);
        let (step, size) = (&table.rows[state][kind], table.kinds[kind].size);
        let needed = (0..).find(|k| k * table.head.width >= size).unwrap();
        let run = if step.form == 1 {
            step.a..step.a + step.b
        } else {
            0..0
        };
        let fault = match step.form {
            0 => 1,
            1 if run.clone().any(|register| given.contains(&register)) => 2,
            1 if step.b != needed => 3,
            2 if step.b != size => 3,
            2 if step.a % table.kinds[kind].alignment != 0 => 4,
            _ => 0,
        };
        if fault != 0 {
            return Some((position, fault));
        }
        given.extend(run);
        state = usize::from(step.next);
    }
    None
}

/// All lists of one length in kind order.
fn lists(kinds: u8, length: usize) -> impl Iterator<Item = Vec<u8>> {
    let base = usize::from(kinds);
    let digit = move |number: usize, place: usize| (number / base.pow(place as u32) % base) as u8;
    (0..base.pow(length as u32)).map(move |number| {
        (0..length)
            .rev()
            .map(|place| digit(number, place))
            .collect()
    })
}

fn search_all(table: &Table) -> Verdict {
    let all = (0..=2 * table.rows.len()).flat_map(|length| lists(table.head.kinds, length));
    let faulty =
        |list: Vec<u8>| first_fault(table, &list).map(|(_, fault)| Verdict::Fault { fault, list });
    all.into_iter().find_map(faulty).unwrap_or(Verdict::Clean)
}

#[test]
fn lists_come_in_kind_order() {
    assert_eq!(lists(2, 0).collect::<Vec<_>>(), [vec![]]);
    assert_eq!(
        lists(2, 2).collect::<Vec<_>>(),
        [[0, 0], [0, 1], [1, 0], [1, 1]]
    );
}

#[test]
fn judge_agrees_with_a_search_of_all_lists() {
    let random = &mut Xorshift::new(5);
    let mut seen = [0; 5];
    let mut longest = 0;
    for _ in 0..TABLES {
        let table = samples::table(random, MOST);
        let bytes = table.bytes();
        let verdict = judge(&bytes, 2 * table.rows.len()).unwrap();
        assert_eq!(verdict, search_all(&table), "{table:?}");
        match verdict {
            Verdict::Clean => seen[0] += 1,
            Verdict::Fault { fault, list } => {
                seen[usize::from(fault)] += 1;
                longest += usize::from(table.rows.len() > 1 && list.len() == 2 * table.rows.len());
                let refusal = Refusal {
                    number: 10,
                    position: list.len() - 1,
                    fault,
                };
                assert_eq!(place_by_table(&bytes, &list, ROOM), Err(refusal));
            }
        }
    }
    assert!(
        seen.iter().all(|&count| count > 100),
        "clean, then by fault: {seen:?}"
    );
    assert!(longest > 0, "no list as long as 2N");
}

#[test]
fn placing_stops_at_the_first_fault() {
    let random = &mut Xorshift::new(6);
    let mut seen = [0; 5];
    for _ in 0..TABLES {
        let table = samples::table(random, MOST);
        let kinds = list(random, table.head.kinds, 12);
        let placed = place_by_table(&table.bytes(), &kinds, ROOM).map(|placed| placed.count);
        let wanted = first_fault(&table, &kinds);
        seen[usize::from(wanted.map_or(0, |(_, fault)| fault))] += 1;
        let wanted = wanted.map(|(position, fault)| Refusal {
            number: 10,
            position,
            fault,
        });
        assert_eq!(
            placed,
            wanted.map_or(Ok(kinds.len()), Err),
            "{table:?} {kinds:?}"
        );
    }
    assert!(
        seen.iter().all(|&count| count > 100),
        "placed, then by fault: {seen:?}"
    );
}
