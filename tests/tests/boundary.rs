//! The boundary itself: every field of every answer, every number by every call, the C header and the C example.

use std::io::{stderr, Write};
use std::path::Path;
use std::process::Command;

use comparison::machine::{archive, run, top, PROVED, WARNINGS};
use comparison::raw::{self, Answer, Head, Kind};
use comparison::{damage, kinds, rounds, Numbers, MOST};
use reference::samples::{self, Xorshift};
use reference::{Refusal, Verdict};

/// What every call is asked in one round.
#[derive(Debug)]
struct Question {
    sheet: Vec<u8>,
    table: Vec<u8>,
    kinds: Vec<u8>,
    room: usize,
    kind: u64,
    state: u64,
}

impl Question {
    /// A third of the files are as they should be; list, room, kind and state are mostly right too.
    fn seeded(random: &mut Xorshift) -> Self {
        let mut sheet = samples::sheet(random, MOST).bytes();
        let mut table = samples::table(random, MOST).bytes();
        if !random.one_in(3) {
            sheet = damage(random, &sheet);
            table = damage(random, &table);
        }
        let (known, longest) = (random.within(1..=8), [3, 3, 20, 400][random.below(4)]);
        let mut kinds = samples::list(random, known, longest);
        if random.one_in(8) {
            kinds.resize(401, 0);
        }
        Question {
            room: [2406, 2406, 400, 40, 5][random.below(5)],
            kind: [0, 1, 2, 3, 7, 8, 255, 256, u64::MAX][random.below(9)],
            state: random.below(21) as u64,
            sheet,
            table,
            kinds,
        }
    }

    /// What the library answers: reading a sheet, reading a table.
    fn heads(&self) -> [Head; 2] {
        [raw::read_sheet(&self.sheet), raw::read_table(&self.table)]
    }

    /// What the library answers: a kind of a sheet, a kind of a table.
    fn kinds(&self) -> [Kind; 2] {
        [
            raw::sheet_kind(&self.sheet, self.kind),
            raw::table_kind(&self.table, self.kind),
        ]
    }

    /// What the library answers: row, placing by the rules and by a table, building, judging.
    fn answers(&self) -> [Answer; 5] {
        let out = &mut vec![0; self.room];
        [
            raw::row(&self.table, self.state),
            raw::place_by_rules(&self.sheet, &self.kinds, out),
            raw::place_by_table(&self.table, &self.kinds, out),
            raw::build(&self.sheet, out),
            raw::judge(&self.table, out),
        ]
    }

    fn expected_heads(&self) -> [Head; 2] {
        let sheet = reference::read_sheet(&self.sheet).map(|sheet| (sheet.head, 0));
        let table = reference::read_table(&self.table).map(|table| (table.head, table.rows.len()));
        [sheet, table].map(head)
    }

    fn expected_kinds(&self) -> [Kind; 2] {
        let sheet = kinds::of_sheet(&self.sheet, self.kind).map(|(kind, first_start)| Kind {
            size: kind.size,
            alignment: kind.alignment,
            flags: kind.flags,
            starts: kind.starts.len() as u8,
            first_start: first_start as u16,
            ..Kind::default()
        });
        let table = kinds::of_table(&self.table, self.kind).map(|kind| Kind {
            size: kind.size,
            alignment: kind.alignment,
            ..Kind::default()
        });
        [sheet, table].map(|kind| kind.unwrap_or_else(no_kind))
    }

    fn expected_answers(&self) -> [Answer; 5] {
        let room = self.room;
        let row = reference::row(&self.table, self.state).map(|row| (row.len(), row.start as u32));
        let by_rules = reference::place_by_rules(&self.sheet, &self.kinds, room);
        let by_table = reference::place_by_table(&self.table, &self.kinds, room);
        let built = reference::build(&self.sheet, room).map(|table| {
            let states = reference::read_table(&table).expect("a built table").rows;
            (states.len(), table.len() as u32)
        });
        [
            counted(row),
            counted(by_rules.map(|placed| (placed.count, placed.p))),
            counted(by_table.map(|placed| (placed.count, placed.p))),
            counted(built),
            verdict(reference::judge(&self.table, room)),
        ]
    }
}

fn head(read: Result<(reference::Head, usize), Refusal>) -> Head {
    match read {
        Ok((head, states)) => Head {
            number: 0,
            registers: head.registers,
            width: head.width,
            modulus: head.modulus,
            kinds: head.kinds,
            zero: 0,
            states: states as u16,
        },
        Err(refusal) => Head {
            number: refusal.number,
            ..Head::default()
        },
    }
}

fn no_kind(refusal: Refusal) -> Kind {
    Kind {
        number: refusal.number,
        ..Kind::default()
    }
}

/// The fields of an answer that says a count and a value.
fn counted(answer: Result<(usize, u32), Refusal>) -> Answer {
    let said = |(count, value)| Answer {
        count: count as u16,
        value,
        ..Answer::default()
    };
    answer.map_or_else(refused, said)
}

fn verdict(verdict: Result<Verdict, Refusal>) -> Answer {
    let said = |verdict| match verdict {
        Verdict::Clean => Answer::default(),
        Verdict::Fault { fault, list } => Answer {
            fault,
            count: list.len() as u16,
            ..Answer::default()
        },
    };
    verdict.map_or_else(refused, said)
}

fn refused(refusal: Refusal) -> Answer {
    Answer {
        number: refusal.number,
        fault: refusal.fault,
        count: refusal.position as u16,
        value: 0,
    }
}

#[test]
fn every_field_of_every_answer_and_every_number_of_every_call() {
    let mut random = Xorshift::new(41);
    let mut numbers = [(); 9].map(|_| Numbers::default());
    for _ in 0..rounds(15_000) {
        let question = Question::seeded(&mut random);
        let (heads, kinds, answers) = (question.heads(), question.kinds(), question.answers());
        assert_eq!(heads, question.expected_heads(), "{question:02X?}");
        assert_eq!(kinds, question.expected_kinds(), "{question:02X?}");
        assert_eq!(answers, question.expected_answers(), "{question:02X?}");
        let given = heads.map(|head| head.number).into_iter();
        let given = given.chain(kinds.map(|kind| kind.number));
        let given = given.chain(answers.map(|answer| answer.number));
        given
            .zip(&mut numbers)
            .for_each(|(number, numbers)| numbers.count(number));
    }
    let [read_sheet, read_table, sheet_kind, table_kind, row, by_rules, by_table, build, judge] =
        numbers;
    read_sheet.assert_reached(&[0, 1, 2, 3, 4, 5, 6], 20);
    read_table.assert_reached(&[0, 1, 2, 3, 4, 5, 6, 7], 20);
    sheet_kind.assert_reached(&[0, 1, 2, 3, 4, 5, 6, 9], 20);
    table_kind.assert_reached(&[0, 1, 2, 3, 4, 5, 6, 7, 9], 20);
    row.assert_reached(&[0, 1, 2, 3, 4, 5, 6, 7, 13], 20);
    by_rules.assert_reached(&[0, 1, 2, 3, 4, 5, 6, 8, 9, 10, 12], 20);
    by_table.assert_reached(&[0, 1, 2, 3, 4, 5, 6, 7, 8, 9, 10, 12], 20);
    build.assert_reached(&[0, 1, 2, 3, 4, 5, 6, 11, 12], 20);
    judge.assert_reached(&[0, 1, 2, 3, 4, 5, 6, 7, 12], 20);
}

#[test]
fn the_header_is_clean_c_and_c_plus_plus() {
    let has_g_plus_plus = Command::new("g++").arg("--version").output().is_ok();
    let c_plus_plus = if has_g_plus_plus { "g++" } else { "gcc" };
    let languages = [
        ("gcc", "c", "-std=c99"),
        ("gcc", "c", "-std=c11"),
        (c_plus_plus, "c++", "-std=c++11"),
        (c_plus_plus, "c++", "-std=c++17"),
    ];
    for (compiler, language, standard) in languages {
        for file in ["include/teaselram.h", "tests/c/header.c"] {
            let arguments = ["-fsyntax-only", "-Iinclude", standard, "-x", language, file];
            run(compiler, &[&WARNINGS[..], &arguments].concat());
        }
    }
}

/// What the header says of the host's functions, seen in the proved library itself, whatever the tests link.
#[test]
fn the_library_needs_memcpy_and_memset_alone() {
    let words = ["--undefined-only", PROVED];
    if !cfg!(target_arch = "x86_64") && !nm_takes(&words) {
        // Not by eprintln!, as what a passing test prints is not shown.
        let line = "left out: what the library needs of its host, as nm reads no x86-64 code here";
        writeln!(stderr(), "{line}").expect("standard error");
        return;
    }
    let needed = run("nm", &words);
    let needed: Vec<_> = needed.split_whitespace().skip(1).collect();
    assert_eq!(needed, ["U", "memcpy", "U", "memset"]);
}

/// Whether this machine's nm does as it is told; it need not know the code of another processor.
fn nm_takes(words: &[&str]) -> bool {
    let output = Command::new("nm").args(words).current_dir(top()).output();
    output.is_ok_and(|output| output.status.success() && output.stderr.is_empty())
}

/// A copy of the repository tests its own library, so what it links names no folder of the checkout that made it.
#[test]
fn the_archive_names_no_checkout() {
    let bytes = std::fs::read(archive()).expect("the archive is there");
    let top = top().canonicalize().expect("the repository is there");
    let top = top.to_str().expect("a path of text").as_bytes();
    assert!(bytes.windows(top.len()).all(|part| part != top));
}

const EXAMPLE: &str = "examples/c/build_judge_place.c";

const EXAMPLE_PRINTS: &str = "\
sheet: 4 registers of 4 bytes, stack modulus 8, 3 kinds
char: size 1, alignment 1, stack, starts 0 1 2 3
int: size 4, alignment 4, stack, starts 0 1 2 3
double: size 8, alignment 8, stack, starts 0 1 2
table: 12 states, 158 bytes
verdict: clean
char: registers 0 to 0
int: registers 1 to 1
int: registers 2 to 2
double: stack bytes 0 to 7
int: registers 3 to 3
stack: 8 bytes
the empty list
stack: 0 bytes
the same with no stack for double
table: 12 states, 158 bytes
verdict: fault 1 for char double double
";

/// Compiles the example by the command that stands in its first comment, but for where the program goes and which archive
/// this machine links, and runs it.
#[test]
fn the_c_example_prints_its_lines() {
    let program = Path::new(env!("CARGO_TARGET_TMPDIR")).join("build_judge_place");
    let program = program.to_str().expect("a path of text");
    let archive = archive();
    let source = std::fs::read_to_string(top().join(EXAMPLE)).expect("the example is there");
    let command = source
        .lines()
        .find_map(|line| line.trim().strip_prefix("*   gcc "));
    let mut arguments: Vec<_> = command
        .expect("the comment has the command")
        .split(' ')
        .collect();
    let place = |wanted| arguments.iter().position(|&argument| argument == wanted);
    let to = 1 + place("-o").expect("an output");
    let linked = place("target/staticlib/libteaselram.a").expect("the archive");
    arguments[to] = program;
    arguments[linked] = archive.to_str().expect("a path of text");
    run("gcc", &[&WARNINGS[..], &arguments].concat());
    assert_eq!(run(program, &[]), EXAMPLE_PRINTS);
}
