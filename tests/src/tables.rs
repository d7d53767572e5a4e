//! Tables made for the judge: every kind has one byte, w = A = 1, so that a step to the stack or in one register has no fault
//! but 2 unless made so. `sized` makes the kinds larger, for runs of more registers.

use reference::{samples::Xorshift, Head, Table, TableKind, Transition};

/// A transition to the stack.
pub fn on_stack(next: u8) -> Transition {
    Transition {
        form: 2,
        a: 0,
        b: 1,
        next,
    }
}

/// A transition that gives `count` registers from `first` on.
pub fn in_registers(first: u8, count: u8, next: u8) -> Transition {
    Transition {
        form: 1,
        a: first,
        b: count,
        next,
    }
}

/// The table of these rows.
pub fn table(registers: u8, rows: Vec<Vec<Transition>>) -> Table {
    let kind = TableKind {
        size: 1,
        alignment: 1,
    };
    let head = Head {
        registers,
        width: 1,
        modulus: 1,
        kinds: rows[0].len() as u8,
    };
    Table {
        kinds: vec![kind; rows[0].len()],
        head,
        rows,
    }
}

/// The same table with kinds of these sizes, and with as many bytes in each kind's steps to the stack.
pub fn sized(mut table: Table, sizes: &[u8]) -> Table {
    for (kind, &size) in sizes.iter().enumerate() {
        table.kinds[kind].size = size;
        let steps = table.rows.iter_mut().map(|row| &mut row[kind]);
        steps
            .filter(|step| step.form == 2)
            .for_each(|step| step.b = size);
    }
    table
}

/// The table whose states stand in a ring: from each, the kind that `path` has for it goes on to the next by `step`, and
/// every other kind stays by the stack. So whatever goes round goes by `path`.
pub fn ring(
    registers: u8,
    kinds: u8,
    path: &[u8],
    step: impl Fn(usize, u8) -> Transition,
) -> Table {
    let row = |state: usize| {
        let next = ((state + 1) % path.len()) as u8;
        let transition = |kind| match kind == path[state] {
            true => step(state, next),
            false => on_stack(state as u8),
        };
        (0..kinds).map(transition).collect()
    };
    table(registers, (0..path.len()).map(row).collect())
}

/// The table whose two kinds lead apart, to a state each that gives one of the registers again and again. So two lists
/// of one length are faulty, and that of the first register comes first.
pub fn rivals([first, second]: [u8; 2]) -> Table {
    let twice = |register, state| vec![in_registers(register, 1, state), on_stack(0)];
    let apart = vec![on_stack(1), on_stack(2)];
    table(2, vec![apart, twice(first, 1), twice(second, 2)])
}

/// A seeded path of a ring with so many states.
pub fn path(random: &mut Xorshift, kinds: u8, states: usize) -> Vec<u8> {
    (0..states).map(|_| random.within(0..=kinds - 1)).collect()
}
