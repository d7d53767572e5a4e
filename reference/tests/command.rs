//! 01, "The program": the command itself.

use std::io::Write;
use std::process::{Child, Command, Stdio};
use std::thread::sleep;
use std::time::{Duration, Instant};

use reference::read_sheet;
use reference::samples::{private_registers, s_with_double, with_length, S};

fn start() -> Child {
    Command::new(env!("CARGO_BIN_EXE_reference"))
        .stdin(Stdio::piped())
        .stdout(Stdio::piped())
        .spawn()
        .expect("the command starts")
}

fn printed(input: &[u8]) -> String {
    let mut command = start();
    // A command that has read enough may be gone before all is written.
    _ = command
        .stdin
        .take()
        .expect("input is piped")
        .write_all(input);
    let output = command.wait_with_output().expect("the command ends");
    assert!(output.status.success());
    String::from_utf8(output.stdout).expect("the line is text")
}

/// S with bytes left over, so many in all; only number 6 is wrong with it.
fn padded(length: usize) -> Vec<u8> {
    let mut body = S[2..].to_vec();
    body.resize(length - 2, 0);
    with_length(&body)
}

#[test]
fn prints_one_line() {
    assert_eq!(printed(&S), "12 3 clean\n");
    assert_eq!(
        printed(&s_with_double(|double| double.flags = 0)),
        "12 3 fault 1 3 0 2 2\n"
    );
    assert_eq!(printed(&private_registers(7).bytes()), "128 7 clean\n");
}

#[test]
fn prints_refusals() {
    assert_eq!(printed(&[]), "refused 1\n");
    assert_eq!(printed(&[0]), "refused 1\n");
    assert_eq!(printed(&[0, 1, 2]), "refused 2\n");
    assert_eq!(printed(&[0, 0]), "refused 3\n");
    assert_eq!(printed(&private_registers(8).bytes()), "refused 11\n");
}

#[test]
fn input_of_1024_bytes_is_read() {
    assert_eq!(printed(&padded(1024)), "refused 6\n");
}

#[test]
fn input_of_1025_bytes_is_too_long() {
    assert_eq!(
        read_sheet(&padded(1025)).map_err(|refusal| refusal.number),
        Err(6)
    );
    assert_eq!(printed(&padded(1025)), "refused 1\n");
    assert_eq!(printed(&padded(60_000)), "refused 1\n");
    // The first 1,024 bytes alone would get number 6.
    assert_eq!(printed(&[padded(1024), vec![0]].concat()), "refused 1\n");
}

#[test]
fn too_long_input_is_read_no_further() {
    let mut command = start();
    let mut input = command.stdin.take().expect("input is piped");
    input.write_all(&padded(1025)).expect("the command reads");
    let begun = Instant::now();
    while command
        .try_wait()
        .expect("the command can be asked")
        .is_none()
    {
        if begun.elapsed() > Duration::from_secs(10) {
            command.kill().expect("the command can be ended");
            panic!("the command waits for more input");
        }
        sleep(Duration::from_millis(5));
    }
    let output = command.wait_with_output().expect("the command has ended");
    assert_eq!(output.stdout, b"refused 1\n");
}
