//! Judging tables, reading the table included.

use std::hint::black_box;

use reference::{Head, Table, TableKind, Transition};

use crate::inputs::Input;
use crate::plain::{judge::judge, table};
use crate::timing::medians;
use crate::{Refusal, Verdict};

/// The registers and kinds of the tables that grow.
const REGISTERS: u8 = 16;
const KINDS: u8 = 8;

fn plain(table: &[u8], out: &mut [u8]) -> Result<Verdict, Refusal> {
    judge(&table::Table::read(table)?, out)
}

/// A clean table that every search goes through whole: a stair of sixteen states gives a register each or passes it by, and
/// the states after it, met with the watched register given and without, lead to one another by the stack.
fn clean(states: u8) -> Vec<u8> {
    let row = |state: u8| {
        let transition = |kind: u8| match state.checked_sub(REGISTERS) {
            None if kind == 0 => step(1, state, state + 1),
            None => step(2, 0, state + 1),
            Some(after) => step(2, 0, REGISTERS + further(after, kind, states - REGISTERS)),
        };
        (0..KINDS).map(transition).collect()
    };
    table((0..states).map(row).collect())
}

/// Kind 0 goes on by one, the others by leaps, round and round.
fn further(after: u8, kind: u8, count: u8) -> u8 {
    let leap = 1 + 7 * u16::from(kind);
    ((u16::from(after) + leap) % u16::from(count)) as u8
}

/// A table whose shortest faulty list goes twice through all its states: only the last gives a register.
fn twice_around(states: u8) -> Vec<u8> {
    let row = |state: u8| {
        let forward = step(
            if state == states - 1 { 1 } else { 2 },
            0,
            (state + 1) % states,
        );
        let mut row = vec![step(2, 0, state); usize::from(KINDS)];
        row[usize::from(state % KINDS)] = forward;
        row
    };
    table((0..states).map(row).collect())
}

fn step(form: u8, a: u8, next: u8) -> Transition {
    Transition {
        form,
        a,
        b: 1,
        next,
    }
}

fn table(rows: Vec<Vec<Transition>>) -> Vec<u8> {
    let kind = TableKind {
        size: 1,
        alignment: 1,
    };
    let head = Head {
        registers: REGISTERS,
        width: 1,
        modulus: 1,
        kinds: KINDS,
    };
    let kinds = vec![kind; usize::from(KINDS)];
    Table { head, kinds, rows }.bytes()
}

fn line(name: &str, table: &[u8]) {
    let [mut one, mut other] = [[0; teaselram::LONGEST_LIST]; 2];
    let verdict = teaselram::judge(table, &mut one).expect("the table is judged");
    assert_eq!(plain(table, &mut other), Ok(verdict));
    assert_eq!(one, other);
    let [library, plain] = medians([
        &mut || _ = black_box(teaselram::judge(black_box(table), &mut one)),
        &mut || _ = black_box(plain(black_box(table), &mut other)),
    ]);
    let states = teaselram::read_table(table)
        .expect("the table is read")
        .states;
    let said = match verdict {
        Verdict::Clean => "clean".to_string(),
        Verdict::Fault { fault, length } => format!("fault {fault}, {length} arguments"),
    };
    let [library, plain] = [library, plain].map(|time| time / 1000.0);
    let ratio = library / plain;
    println!("| {name} | {states} | {said} | {library:.2} | {plain:.2} | {ratio:.2} |");
}

/// Prints the table.
pub fn report(inputs: &[Input]) {
    println!("\n### Judging, microseconds a table\n");
    println!("| table | states | verdict | library | plain | ratio |");
    println!("|---|---|---|---|---|---|");
    for input in inputs {
        line(input.name, &input.table);
    }
    for states in [25, 50, 100, 200] {
        line("clean, 16 registers, 8 kinds", &clean(states));
    }
    for states in [25, 50, 100, 200] {
        line("twice around, 16 registers, 8 kinds", &twice_around(states));
    }
}
