//! What include/teaselram.h says of the stack, as tests/c/stack.c measures it with the proved library itself, whatever
//! the other tests link.

use std::collections::BTreeMap;
use std::fs;

use comparison::machine::{run, PROVED, WARNINGS};
use comparison::tables::{in_registers, on_stack, ring, rivals, sized};
use comparison::{rounds, MOST};
use reference::samples::{self, Xorshift};
use reference::{Head, Sheet, SheetKind, Table, Verdict};
use teaselram::{LONGEST_LIST, LONGEST_TABLE, MOST_ARGUMENTS, RECORD_LENGTH};

const PROGRAM: &str = concat!(env!("CARGO_TARGET_TMPDIR"), "/stack");
const SHEET: &str = concat!(env!("CARGO_TARGET_TMPDIR"), "/sheet");
const TABLE: &str = concat!(env!("CARGO_TARGET_TMPDIR"), "/table");

/// The longest sheet: eight kinds, of 1 to 8 bytes, that each try all registers in turn, so that soon most starts are
/// tried and not taken.
fn rising(flags: [u8; 8]) -> Vec<u8> {
    let kind = |(size, flags)| SheetKind {
        size,
        alignment: 1,
        flags,
        starts: (0..16).map(|start| (16 - size).min(start)).collect(),
    };
    let head = Head {
        registers: 16,
        width: 1,
        modulus: 8,
        kinds: 8,
    };
    let kinds = (1..).zip(flags).map(kind).collect();
    Sheet { head, kinds }.bytes()
}

/// The longest table: its kinds in turn go round its states, and the last state is faulty the second time.
fn twice_round() -> Table {
    let path: Vec<_> = (0..200).map(|state| state % 8).collect();
    let table = ring(16, 8, &path, |state, next| match state {
        199 => in_registers(0, 16, next),
        _ => on_stack(next),
    });
    sized(table, &[16; 8])
}

/// The sheets and tables with which every call is made: first sheets with their own tables, some of which close, with
/// and without stack; then tables with several faulty lists and seeded ones, beside seeded sheets, of which half have
/// stack for every kind.
fn cases() -> Vec<[Vec<u8>; 2]> {
    let mut random = Xorshift::new(71);
    let sheets = [
        samples::S.to_vec(),
        samples::s_with_double(|double| double.flags = 0),
        samples::private_registers(7).bytes(),
        samples::private_registers(8).bytes(),
        vec![0, 1, 2],
        rising([3; 8]),
        rising([2; 8]),
        rising([3, 2, 1, 0, 3, 2, 1, 0]),
    ];
    let own = sheets.map(|sheet| {
        let table = reference::build(&sheet, LONGEST_TABLE).unwrap_or_default();
        [sheet, table]
    });
    let mut tables = vec![rivals([0, 1]), rivals([1, 0]), twice_round()];
    tables.extend((0..rounds(100)).map(|_| samples::table(&mut random, MOST)));
    let beside = tables.iter().map(|table| {
        let mut sheet = samples::sheet(&mut random, MOST);
        let stack = u8::from(random.one_in(2));
        sheet.kinds.iter_mut().for_each(|kind| kind.flags |= stack);
        [sheet.bytes(), table.bytes()]
    });
    own.into_iter().chain(beside).collect()
}

/// How often closing mattered, and how often a table was clean or had each fault.
#[derive(Default)]
struct Reached {
    closing: usize,
    verdicts: [usize; 5],
}

impl Reached {
    fn note(&mut self, sheet: &[u8], table: &[u8]) {
        self.closing += usize::from(closes(sheet));
        match reference::judge(table, LONGEST_LIST) {
            Ok(Verdict::Clean) => self.verdicts[0] += 1,
            Ok(Verdict::Fault { fault, .. }) => self.verdicts[usize::from(fault)] += 1,
            Err(_) => {}
        }
    }
}

/// Whether a list of each kind in turn, as tests/c/stack.c has it, is placed otherwise because kinds close.
fn closes(sheet: &[u8]) -> bool {
    let Ok(mut sheet) = reference::read_sheet(sheet) else {
        return false;
    };
    let kinds = (0..sheet.head.kinds).cycle();
    let list: Vec<_> = kinds.take(MOST_ARGUMENTS).collect();
    let room = RECORD_LENGTH * MOST_ARGUMENTS;
    let closing = reference::place_by_rules(&sheet.bytes(), &list, room);
    sheet.kinds.iter_mut().for_each(|kind| kind.flags &= 1);
    closing != reference::place_by_rules(&sheet.bytes(), &list, room)
}

#[test]
#[cfg_attr(
    not(target_arch = "x86_64"),
    ignore = "the library is x86-64 code, and gcc links no such program here"
)]
fn no_call_takes_more_stack_than_the_header_says() {
    let compiled = ["-std=c99", "-Iinclude", "-o", PROGRAM, "tests/c/stack.c"];
    let linked = ["-Wl,-z,now", PROVED];
    run("gcc", &[&WARNINGS[..], &compiled, &linked].concat());
    let (mut most, mut reached) = (BTreeMap::new(), Reached::default());
    for [sheet, table] in cases() {
        fs::write(SHEET, &sheet).expect("a file for the sheet");
        fs::write(TABLE, &table).expect("a file for the table");
        for line in run(PROGRAM, &[SHEET, TABLE]).lines() {
            let (call, bytes) = line.split_once(' ').expect("a call and its bytes");
            let bytes: usize = bytes.parse().expect("a number");
            let most = most.entry(call.to_owned()).or_insert(0);
            *most = bytes.max(*most);
        }
        reached.note(&sheet, &table);
    }
    println!("{most:?}");
    let Reached { closing, verdicts } = reached;
    assert!(closing > 2, "closing matters {closing} times");
    assert!(verdicts.iter().all(|&count| count > 5), "{verdicts:?}");
}
