//! 01, "The built table" against "Placing by the rules".

use std::collections::HashSet;

use reference::samples::{self, list, Most, Xorshift};
use reference::{
    allocation_states, build, judge, line, place_by_rules, place_by_table, read_table, Refusal,
    Sheet, Table, Verdict,
};

const SHEETS: usize = 600;
const LISTS: usize = 12;
const ROOM: usize = 6424;

const MOST: Most = Most {
    registers: 16,
    kinds: 8,
    states: 200,
};

/// Calls `each` with every seeded sheet that has a table, and answers how many have none.
fn each_built(seed: u64, mut each: impl FnMut(&mut Xorshift, &Sheet, Table)) -> usize {
    let random = &mut Xorshift::new(seed);
    let mut too_many = 0;
    for _ in 0..SHEETS {
        let sheet = samples::sheet(random, MOST);
        match build(&sheet.bytes(), ROOM) {
            Ok(table) => each(random, &sheet, read_table(&table).unwrap()),
            Err(refusal) => {
                assert_eq!(refusal.number, 11);
                too_many += 1;
            }
        }
    }
    too_many
}

#[test]
fn both_walks_place_alike() {
    let (mut placed, mut refused) = (0, 0);
    let too_many = each_built(8, |random, sheet, table| {
        for _ in 0..LISTS {
            let kinds = list(random, sheet.head.kinds, 40);
            let by_rules = place_by_rules(&sheet.bytes(), &kinds, ROOM);
            assert_eq!(
                place_by_table(&table.bytes(), &kinds, ROOM),
                by_rules,
                "{sheet:?} {kinds:?}"
            );
            match by_rules {
                Ok(_) => placed += 1,
                Err(_) => refused += 1,
            }
        }
    });
    assert!(
        placed > 500 && refused > 500,
        "{placed} placed, {refused} refused"
    );
    assert!(
        too_many > 10 && too_many < SHEETS / 2,
        "{too_many} sheets without a table"
    );
}

#[test]
fn states_are_numbered_as_first_met() {
    let mut largest = 0;
    each_built(9, |_, sheet, table| {
        let mut met = 1;
        for (state, row) in table.rows.iter().enumerate() {
            assert!(state < met, "state {state} has not been met before its row");
            for step in row.iter().filter(|step| step.form != 0) {
                let next = usize::from(step.next);
                assert!(next <= met, "state {next} is met before state {met}");
                met = met.max(next + 1);
            }
        }
        assert_eq!(met, table.rows.len());
        let states = allocation_states(sheet).unwrap();
        assert_eq!(states.len(), table.rows.len());
        assert_eq!(states.iter().collect::<HashSet<_>>().len(), states.len());
        largest = largest.max(states.len());
    });
    assert!(largest > 100, "the largest table has {largest} states");
}

#[test]
fn head_and_kinds_are_copied() {
    each_built(10, |_, sheet, table| {
        assert_eq!(table.head, sheet.head);
        let of_table = table.kinds.iter().map(|kind| (kind.size, kind.alignment));
        assert!(of_table.eq(sheet.kinds.iter().map(|kind| (kind.size, kind.alignment))));
        let length =
            2 + 1 + 4 + 2 * table.kinds.len() + 1 + 4 * table.kinds.len() * table.rows.len();
        assert_eq!(
            build(&sheet.bytes(), length).map(|bytes| bytes.len()),
            Ok(length)
        );
        assert_eq!(
            build(&sheet.bytes(), length - 1).map_err(|refusal| refusal.number),
            Err(12)
        );
    });
}

#[test]
fn built_tables_have_fault_1_or_none() {
    let (mut clean, mut faulty) = (0, 0);
    each_built(11, |_, sheet, table| {
        let summary = format!("{} {}", table.rows.len(), table.kinds.len());
        let verdict = match judge(&table.bytes(), 2 * table.rows.len()).unwrap() {
            Verdict::Clean => {
                clean += 1;
                "clean".to_string()
            }
            Verdict::Fault { fault, list } => {
                faulty += 1;
                let refusal = Refusal {
                    number: 10,
                    position: list.len() - 1,
                    fault: 1,
                };
                assert_eq!(place_by_rules(&sheet.bytes(), &list, ROOM), Err(refusal));
                let kinds: String = list.iter().map(|kind| format!(" {kind}")).collect();
                format!("fault {fault} {}{kinds}", list.len())
            }
        };
        assert_eq!(line(&sheet.bytes()), format!("{summary} {verdict}\n"));
    });
    assert!(clean > 50 && faulty > 50, "{clean} clean, {faulty} faulty");
}
