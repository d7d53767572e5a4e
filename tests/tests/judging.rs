//! Judging tables: the examples of documents 01 and 02, every count of registers, tables made to be hard, and seeded ones, the
//! library beside the second program.

use comparison::tables::{in_registers, on_stack, path, ring, rivals, sized, table};
use comparison::{compare, damage, refused, rounds, Numbers, MOST};
use reference::samples::{self, one_step_table, Most, Xorshift, S, WIDTHS};
use reference::{Refusal, Table, Transition, Verdict};
use teaselram::{LONGEST_LIST, LONGEST_TABLE};

/// The verdict on a table, with just the room that is needed.
fn judge(table: &Table) -> Verdict {
    compare::judge(&table.bytes(), 2 * table.rows.len()).expect("the table is judged")
}

fn fault(fault: u8, list: impl Into<Vec<u8>>) -> Verdict {
    Verdict::Fault {
        fault,
        list: list.into(),
    }
}

/// Asserts that the library's own walk goes wrong at the end of the verdict's list, and not before.
fn assert_shown(table: &[u8], fault: u8, list: &[u8]) {
    let last = list.len() - 1;
    let refusal = teaselram::Refusal {
        number: 10,
        position: Some(last),
        fault,
    };
    let mut out = [0; 2400];
    assert_eq!(
        teaselram::place_by_table(table, list, &mut out),
        Err(refusal)
    );
    assert!(teaselram::place_by_table(table, &list[..last], &mut out).is_ok());
}

/// Where a count of registers stands beside the size over w, rounded up, of 02's W-202: 0 is below it, 1 at it, 2 above it.
fn standing(count: u8, size: u8, width: u8) -> usize {
    let needed = (1..).find(|needed| needed * width >= size);
    let needed = needed.expect("some multiple of w is no less than the size");
    usize::from(count >= needed) + usize::from(count > needed)
}

/// How often each verdict was given, and fault 3 of registers for each standing of their count; and the longest list.
#[derive(Default)]
struct Verdicts {
    clean: usize,
    faults: [usize; 5],
    counts: [usize; 3],
    longest: usize,
}

impl Verdicts {
    /// Judges a table and counts the verdict.
    fn note(&mut self, table: &Table) {
        let Verdict::Fault { fault, list } = judge(table) else {
            self.clean += 1;
            return;
        };
        assert_shown(&table.bytes(), fault, &list);
        self.faults[usize::from(fault)] += 1;
        self.longest = self.longest.max(list.len());
        let (step, size) = last_step(table, &list);
        if fault == 3 && step.form == 1 {
            self.counts[standing(step.b, size, table.head.width)] += 1;
        }
    }
}

/// The transition at the end of a list, and the size of its kind.
fn last_step<'a>(table: &'a Table, list: &[u8]) -> (&'a Transition, u8) {
    let step = |state: u8, kind: u8| &table.rows[usize::from(state)][usize::from(kind)];
    let (&last, before) = list.split_last().expect("a faulty list is not empty");
    let state = before.iter().fold(0, |state, &kind| step(state, kind).next);
    (step(state, last), table.kinds[usize::from(last)].size)
}

/// The table whose one kind is first given `count` of sixteen registers, and goes to the stack from then on.
fn once_in_registers(count: u8, size: u8, width: u8) -> Table {
    let rows = vec![vec![in_registers(0, count, 1)], vec![on_stack(1)]];
    let mut table = sized(table(16, rows), &[size]);
    table.head.width = width;
    table
}

#[test]
fn p8_to_p12() {
    let judge = |transition| judge(&one_step_table(transition));
    assert_eq!(judge([1, 0, 1, 0]), fault(2, [0, 0]));
    assert_eq!(judge([2, 0, 4, 0]), Verdict::Clean);
    assert_eq!(judge([2, 0, 3, 0]), fault(3, [0]));
    assert_eq!(judge([2, 2, 4, 0]), fault(4, [0]));
    assert_eq!(judge([2, 2, 3, 0]), fault(3, [0]));
    assert_eq!(judge([0, 0, 0, 0]), fault(1, [0]));
    assert_eq!(judge([1, 0, 0, 0]), fault(3, [0]), "no register is too few");
}

/// 02, W-202: a double needs two registers of four bytes.
#[test]
fn a_double_in_three_registers() {
    let judge = |count| judge(&once_in_registers(count, 8, 4));
    assert_eq!(judge(3), fault(3, [0]));
    assert_eq!(judge(2), Verdict::Clean);
    assert_eq!(judge(1), fault(3, [0]));
    assert_eq!(judge(0), fault(3, [0]));
}

/// For every width and size, a table with each count is judged, and lists of 1 and of 33 arguments are placed by it, as the
/// library makes the records of up to 32 arguments in other memory than those of more.
#[test]
fn every_count_of_registers() {
    for width in WIDTHS {
        let mut reached = [0; 3];
        for (size, count) in (1..=64).flat_map(|size| (0..=16).map(move |count| (size, count))) {
            let table = once_in_registers(count, size, width);
            let standing = standing(count, size, width);
            let (verdict, refusal) = match standing {
                1 => (Verdict::Clean, None),
                _ => (fault(3, [0]), Some(refused(10, 0, 3))),
            };
            assert_eq!(judge(&table), verdict, "{table:?}");
            for list in [&[0; 1][..], &[0; 33]] {
                let placed = compare::place_by_table(&table.bytes(), list, 6 * list.len());
                assert_eq!(placed.err(), refusal, "{table:?}");
            }
            reached[standing] += 1;
        }
        assert!(reached.iter().all(|&count| count > 0), "{reached:?}");
    }
}

#[test]
fn the_table_of_s() {
    let verdict = |sheet: &[u8]| {
        let table = compare::build(sheet, LONGEST_TABLE).expect("it has a table");
        compare::judge(&table, LONGEST_LIST)
    };
    let stackless = samples::s_with_double(|double| double.flags = 0);
    assert_eq!(verdict(&S), Ok(Verdict::Clean));
    assert_eq!(verdict(&stackless), Ok(fault(1, [0, 2, 2])));
}

#[test]
fn a_register_on_two_rows_far_apart() {
    let row = |state: u8| match state {
        0 => in_registers(0, 1, 1),
        199 => in_registers(0, 1, 199),
        _ => on_stack(state + 1),
    };
    let chain = table(1, (0..200).map(|state| vec![row(state)]).collect());
    assert_eq!(judge(&chain), fault(2, [0; 200]));
}

#[test]
fn runs_that_overlap_in_one_register() {
    let rows = |second| vec![vec![in_registers(0, 4, 1)], vec![second], vec![on_stack(2)]];
    let judge = |second| judge(&sized(table(8, rows(second)), &[4]));
    assert_eq!(judge(in_registers(3, 4, 2)), fault(2, [0, 0]));
    assert_eq!(judge(in_registers(4, 4, 2)), Verdict::Clean);
}

#[test]
fn a_bad_row_counts_only_where_a_list_reaches_it() {
    let stack = |a, b| Transition {
        form: 2,
        a,
        b,
        next: 0,
    };
    let none = Transition {
        form: 0,
        a: 0,
        b: 0,
        next: 0,
    };
    let mut table = one_step_table([2, 0, 4, 0]);
    for (bad, number) in [(none, 1), (stack(0, 5), 3), (stack(2, 4), 4)] {
        table.rows = vec![vec![stack(0, 4)], vec![bad.clone()]];
        assert_eq!(judge(&table), Verdict::Clean);
        table.rows[0][0].next = 1;
        assert_eq!(judge(&table), fault(number, [0, 0]));
    }
}

#[test]
fn a_row_after_a_fault_is_not_reached() {
    let mut rows = vec![vec![in_registers(0, 0, 1)], vec![in_registers(0, 1, 1)]];
    assert_eq!(judge(&table(1, rows.clone())), fault(3, [0]));
    // The second kind goes round the fault.
    rows[0].push(on_stack(1));
    rows[1].push(on_stack(1));
    rows[0][0] = on_stack(0);
    assert_eq!(judge(&table(1, rows)), fault(2, [1, 0, 0]));
}

#[test]
fn the_first_fault_of_a_step() {
    // The kind needs two registers, and the last two of five are given before.
    let faults = [
        (3, 1, 2, "2 before 3 by too few"),
        (2, 1, 3, "too few"),
        (1, 3, 2, "2 before 3 by the one too many"),
        (0, 3, 3, "too many"),
        (3, 0, 3, "an empty run was not given"),
    ];
    for (first, count, number, why) in faults {
        let second = in_registers(first, count, 1);
        let table = table(5, vec![vec![in_registers(3, 2, 1)], vec![second]]);
        let table = sized(table, &[2]);
        assert_eq!(judge(&table), fault(number, [0, 0]), "{why}");
        assert_shown(&table.bytes(), number, &[0, 0]);
    }
}

#[test]
fn shorter_first_and_then_in_kind_order() {
    let bad = in_registers(0, 0, 0);
    let rows = |first: [Transition; 3]| {
        let second = [on_stack(1), on_stack(1), bad.clone()];
        let third = [bad.clone(), on_stack(2), on_stack(2)];
        table(2, [first, second, third].map(Vec::from).to_vec())
    };
    let verdict = judge(&rows([on_stack(0), on_stack(2), on_stack(1)]));
    assert_eq!(verdict, fault(3, [1, 0]), "before 2 2");
    let verdict = judge(&rows([on_stack(0), on_stack(1), on_stack(2)]));
    assert_eq!(verdict, fault(3, [1, 2]), "before 2 0");
    let verdict = judge(&rows([on_stack(1), on_stack(1), bad.clone()]));
    assert_eq!(verdict, fault(3, [2]), "before 0 2");
}

/// Two lists of one length go wrong by different registers; which register has the lower number decides nothing.
#[test]
fn kind_order_comes_before_the_order_of_registers() {
    for registers in [[0, 1], [1, 0]] {
        assert_eq!(judge(&rivals(registers)), fault(2, [0, 0, 0]));
    }
}

#[test]
fn each_register_is_watched() {
    for register in 0..16 {
        let row = |state: u8| vec![in_registers(state % 16, 1, (state + 1) % 17)];
        let mut rows: Vec<_> = (0..16).map(row).collect();
        rows.push(vec![in_registers(register, 1, 16)]);
        assert_eq!(
            judge(&table(16, rows)),
            fault(2, [0; 17]),
            "register {register}"
        );
    }
}

/// Only the second visit of the ring's last state goes wrong, which takes twice as many arguments as there are states.
#[test]
fn lists_as_long_as_2n() {
    let mut random = Xorshift::new(31);
    for states in [1, 2, 3, 10, 50, 100, 199, 200] {
        let path = path(&mut random, 8, states);
        let last = ring(1, 8, &path, |state, next| match state == states - 1 {
            true => in_registers(0, 1, next),
            false => on_stack(next),
        });
        let verdict = judge(&last);
        assert_eq!(verdict, fault(2, path.repeat(2)), "{states} states");
        assert_shown(&last.bytes(), 2, &path.repeat(2));
    }
}

/// The second visit of an earlier state goes wrong; the states after it give each a register of its own while there are any.
#[test]
fn lists_almost_as_long_as_2n() {
    let mut random = Xorshift::new(32);
    for _ in 0..rounds(100) {
        let (kinds, registers) = (random.within(1..=8), random.within(1..=16));
        let path = path(&mut random, kinds, 200);
        let first = 199 - random.below(40);
        let given = first..first + usize::from(registers);
        let table = ring(registers, kinds, &path, |state, next| {
            match given.contains(&state) {
                true => in_registers((state - first) as u8, 1, next),
                false => on_stack(next),
            }
        });
        let list = [&path[..], &path[..=first]].concat();
        assert_eq!(judge(&table), fault(2, list));
    }
}

#[test]
fn the_room_is_two_bytes_a_state() {
    let faulty = one_step_table([0, 0, 0, 0]).bytes();
    let clean = compare::build(&S, LONGEST_TABLE).expect("S has a table");
    for (table, needed) in [(faulty, 2), (clean, 24)] {
        for room in [0, needed - 1] {
            assert_eq!(compare::judge(&table, room), Err(refused(12, 0, 0)));
        }
        for room in [needed, needed + 1, 1000] {
            assert!(compare::judge(&table, room).is_ok());
        }
        let short = &table[..table.len() - 1];
        assert_eq!(
            compare::judge(short, 0),
            Err(refused(1, 0, 0)),
            "1 before 12"
        );
    }
}

#[test]
fn seeded_tables_are_judged_alike() {
    let mut random = Xorshift::new(33);
    let mut verdicts = Verdicts::default();
    let (few, many) = (
        Most {
            registers: 4,
            kinds: 3,
            states: 8,
        },
        Most {
            registers: 2,
            kinds: 8,
            states: 200,
        },
    );
    for most in [few, few, MOST, many] {
        for _ in 0..rounds(3000) {
            verdicts.note(&samples::table(&mut random, most));
        }
    }
    let Verdicts {
        clean,
        faults,
        counts: [below, at, above],
        longest,
    } = verdicts;
    assert!(clean > 200, "{clean} clean");
    assert!(faults[1..].iter().all(|&count| count > 200), "{faults:?}");
    assert!(below > 100 && above > 100, "{below} below, {above} above");
    assert_eq!(at, 0, "fault 3 with the right count");
    assert!(longest > 4, "at most {longest} arguments");
}

/// A long way round with a few runs of registers on it, and ways back by the stack.
fn winding(random: &mut Xorshift) -> Table {
    let (kinds, registers) = (random.within(1..=4), random.within(1..=16));
    let sizes: Vec<_> = (0..kinds).map(|_| random.within(1..=registers)).collect();
    let states = 2 + random.below(199);
    let path = path(random, kinds, states);
    let table = ring(registers, kinds, &path, |_, next| on_stack(next));
    let mut table = sized(table, &sizes);
    for (state, row) in table.rows.iter_mut().enumerate() {
        for ((kind, transition), &size) in (0..).zip(row).zip(&sizes) {
            if kind != path[state] {
                transition.next = random.below(state + 1) as u8;
            } else if random.one_in(40) {
                let first = random.within(0..=registers - size);
                *transition = in_registers(first, size, transition.next);
            }
        }
    }
    table
}

#[test]
fn winding_tables_are_judged_alike() {
    let mut random = Xorshift::new(37);
    let mut verdicts = Verdicts::default();
    for _ in 0..rounds(500) {
        verdicts.note(&winding(&mut random));
    }
    let (clean, faulty) = (verdicts.clean, verdicts.faults[2]);
    assert!(clean > 20 && faulty > 200, "{clean} clean, {faulty} faulty");
    assert!(
        verdicts.longest > 150,
        "at most {} arguments",
        verdicts.longest
    );
}

/// A table built from a sheet, of which one transition then leads or gives something else.
fn altered(random: &mut Xorshift) -> Option<Table> {
    let most = Most {
        registers: 8,
        ..MOST
    };
    let sheet = samples::sheet(random, most).bytes();
    let table = reference::build(&sheet, LONGEST_TABLE).ok()?;
    let mut table = reference::read_table(&table).expect("a built table is read");
    let (states, registers) = (table.rows.len(), table.head.registers);
    let row = random.below(states);
    let kind = random.below(table.kinds.len());
    let transition = &mut table.rows[row][kind];
    match random.below(3) {
        0 => transition.next = random.below(states) as u8,
        1 if transition.form == 1 => transition.a = random.within(0..=registers - transition.b),
        _ if transition.form == 1 => transition.b = random.within(0..=registers - transition.a),
        _ if transition.form == 2 => transition.b = transition.b.wrapping_add(1),
        _ => return None,
    }
    (transition.form != 0).then_some(table)
}

#[test]
fn built_tables_with_one_transition_altered() {
    let mut random = Xorshift::new(34);
    let mut verdicts = Verdicts::default();
    for _ in 0..rounds(6000) {
        if let Some(table) = altered(&mut random) {
            verdicts.note(&table);
        }
    }
    let Verdicts {
        clean,
        faults,
        counts: [below, at, above],
        longest,
    } = verdicts;
    assert!(clean > 100, "{clean} clean");
    assert!(faults[1..4].iter().all(|&count| count > 100), "{faults:?}");
    assert!(below > 20 && above > 20, "{below} below, {above} above");
    assert_eq!(at, 0, "fault 3 with the right count");
    assert!(longest > 8, "at most {longest} arguments");
}

#[test]
fn damaged_tables_are_judged_alike() {
    let mut random = Xorshift::new(35);
    let mut numbers = Numbers::default();
    for _ in 0..rounds(10_000) {
        let table = samples::table(&mut random, MOST).bytes();
        let room = random.below(60);
        numbers.note(&compare::judge(&damage(&mut random, &table), room));
    }
    numbers.assert_reached(&[0, 1, 2, 3, 4, 5, 6, 7, 12], 50);
}

#[test]
fn built_tables_have_fault_1_or_none() {
    let mut random = Xorshift::new(36);
    let (mut clean, mut without) = (0, 0);
    for _ in 0..rounds(1500) {
        let mut sheet = samples::sheet(&mut random, MOST);
        let all = random.one_in(2);
        sheet
            .kinds
            .iter_mut()
            .for_each(|kind| kind.flags |= u8::from(all));
        let (mut table, mut list) = ([0; LONGEST_TABLE], [0; LONGEST_LIST]);
        let Ok(built) = teaselram::build(&sheet.bytes(), &mut table) else {
            continue;
        };
        match teaselram::judge(&table[..built.length], &mut list) {
            Ok(teaselram::Verdict::Clean) => clean += usize::from(all),
            Ok(teaselram::Verdict::Fault { fault: 1, .. }) if !all => without += 1,
            other => panic!("{other:?} for {:02X?}", sheet.bytes()),
        }
    }
    assert!(
        clean > 200 && without > 200,
        "{clean} clean, {without} without a place"
    );
}

#[test]
fn the_reader_s_refusals_come_before_12() {
    let table = one_step_table([2, 0, 4, 0]).bytes();
    let wrong = |at: usize, value| {
        let mut wrong = table.clone();
        wrong[at] = value;
        compare::judge(&wrong, 0).map_err(|Refusal { number, .. }| number)
    };
    let numbers = [(1, 11), (2, 2), (3, 17), (7, 0), (10, 7)].map(|(at, value)| wrong(at, value));
    assert_eq!(numbers, [Err(1), Err(2), Err(4), Err(5), Err(7)]);
}
