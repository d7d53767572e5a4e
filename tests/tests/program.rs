//! 01, "The program", as target/bin/judge_sheet: what it prints for 01's examples and for seeded sheets, and how it reads.

use std::fs::{self, File};
use std::io::{Read, Seek, Write};
use std::process::{Child, ChildStdin, Stdio};
use std::thread::sleep;
use std::time::Duration;

use comparison::machine::{program, top};
use comparison::{damage, rounds, MOST};
use reference::samples::{self, hex, Xorshift};
use reference::LONGEST_INPUT;

/// Starts the program with `stdin` as its standard input.
fn started(stdin: impl Into<Stdio>) -> Child {
    program("judge_sheet")
        .stdin(stdin)
        .stdout(Stdio::piped())
        .spawn()
        .expect("the program starts")
}

/// What a program that was started prints, when it has ended as it should.
fn ended(mut child: Child) -> String {
    let mut line = String::new();
    let mut stdout = child.stdout.take().expect("a pipe");
    stdout.read_to_string(&mut line).expect("text");
    assert!(child.wait().expect("an end").success());
    line
}

/// What the program prints when it is fed by a pipe, which is closed after `feed`.
fn fed(feed: impl FnOnce(&mut ChildStdin)) -> String {
    let mut child = started(Stdio::piped());
    feed(&mut child.stdin.take().expect("a pipe"));
    ended(child)
}

/// What the program prints for an input.
fn printed(input: &[u8]) -> String {
    fed(|stdin| stdin.write_all(input).expect("the program reads it whole"))
}

/// A file of so many bytes that begins like S and has the right length field, so that it is a sheet with bytes left over.
fn filled(length: usize) -> Vec<u8> {
    let mut input = samples::S.to_vec();
    input.resize(length, 0);
    let after = u16::try_from(length - 2).expect("a length that two bytes hold");
    input[..2].copy_from_slice(&after.to_be_bytes());
    input
}

#[test]
fn the_examples_of_01() {
    let stackless = samples::s_with_double(|double| double.flags = 0);
    let cases: [(&[u8], &str); 7] = [
        (&samples::S, "12 3 clean\n"),
        (&stackless, "12 3 fault 1 3 0 2 2\n"),
        (&hex("00"), "refused 1\n"),
        (&hex("00 00"), "refused 3\n"),
        (&hex("00 01 02"), "refused 2\n"),
        (&samples::private_registers(7).bytes(), "128 7 clean\n"),
        (&samples::private_registers(8).bytes(), "refused 11\n"),
    ];
    for (input, line) in cases {
        assert_eq!(printed(input), line, "{input:02X?}");
        assert_eq!(reference::line(input), line, "{input:02X?}");
    }
}

#[test]
fn nothing_at_all() {
    assert_eq!(printed(&[]), "refused 1\n");
}

/// A sheet of 1,024 bytes is read, and has bytes left over; with one byte more it is no longer looked at.
#[test]
fn the_longest_input_and_one_byte_more() {
    assert_eq!(printed(&filled(LONGEST_INPUT)), "refused 6\n");
    assert_eq!(printed(&filled(LONGEST_INPUT + 1)), "refused 1\n");
}

/// A file as standard input is left where the program stopped reading: after the byte that is one too many.
#[test]
fn a_megabyte_is_read_no_further() {
    let path = top().join("target/megabyte");
    let mut input = filled(LONGEST_INPUT + 1);
    input.resize(1 << 20, 0);
    fs::write(&path, input).expect("a file of a megabyte");
    let mut file = File::open(&path).expect("the same file");
    let child = started(file.try_clone().expect("a handle for the program"));
    assert_eq!(ended(child), "refused 1\n");
    let read = file.stream_position().expect("a position");
    assert_eq!(read, LONGEST_INPUT as u64 + 1);
}

/// The program does not wait for the end of an input that is too long.
#[test]
fn an_input_without_end() {
    let mut child = started(Stdio::piped());
    let mut stdin = child.stdin.take().expect("a pipe");
    let input = filled(LONGEST_INPUT + 1);
    stdin.write_all(&input).expect("the program reads it whole");
    assert_eq!(ended(child), "refused 1\n");
    drop(stdin);
}

#[test]
fn input_that_arrives_a_byte_at_a_time() {
    let slowly = |stdin: &mut ChildStdin| {
        for byte in samples::S {
            stdin.write_all(&[byte]).expect("the program reads it");
            sleep(Duration::from_millis(3));
        }
    };
    assert_eq!(fed(slowly), "12 3 clean\n");
}

/// Seeded sheets, valid and damaged, against the second program. Short of stack, so that some tables fail with long lists.
#[test]
fn seeded_sheets() {
    let mut random = Xorshift::new(61);
    let mut reached = [0; 3];
    for _ in 0..rounds(400) {
        let mut sheet = samples::sheet(&mut random, MOST).bytes();
        if random.one_in(3) {
            sheet = damage(&mut random, &sheet);
        }
        let line = printed(&sheet);
        assert_eq!(line, reference::line(&sheet), "{sheet:02X?}");
        let outcomes = ["clean", "fault", "refused"];
        let outcome = outcomes.iter().position(|word| line.contains(word));
        reached[outcome.expect("a word of 01's")] += 1;
    }
    assert!(reached.iter().all(|&times| times >= 40), "{reached:?}");
}
