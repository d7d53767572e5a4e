//! What the tests run on this machine. The kit is for x86-64 alone, so the tests link and run its code as it is, or call it in a
//! second process, by what stands in tests/emulated.

use std::env;
use std::path::{Path, PathBuf};
use std::process::Command;

/// The top of the repository.
pub fn top() -> PathBuf {
    Path::new(env!("CARGO_MANIFEST_DIR")).join("..")
}

/// The proved library itself, x86-64 code on every machine, from the top of the repository.
pub const PROVED: &str = "target/staticlib/libteaselram.a";

/// What makes the C compiler say all that it has to say.
pub const WARNINGS: [&str; 4] = ["-Wall", "-Wextra", "-Wpedantic", "-Werror"];

/// The archive with the calls of include/teaselram.h that this machine's programs link: the proved library itself, or
/// the calls that send each request to it in a second process. `rust/teaselram/build.rs` links the same.
pub fn archive() -> PathBuf {
    let archive = if is_emulated() {
        "target/emulated/libteaselram.a"
    } else {
        PROVED
    };
    top().join(archive)
}

/// Whether the tests call the proved library through tests/emulated: on every processor that cannot run its code, and
/// on x86-64 where TEASELRAM_EMULATED is set.
fn is_emulated() -> bool {
    !cfg!(target_arch = "x86_64") || env::var_os("TEASELRAM_EMULATED").is_some()
}

/// A command that runs the proved program `name` of target/bin. Arguments that are added to it are the program's, and so are
/// its standard input, output and status.
///
/// ```no_run
/// let output = comparison::machine::program("judge_sheet").output();
/// ```
///
/// Panics where the program has to be built first, and says by which command.
pub fn program(name: &str) -> Command {
    let program = top().join("target/bin").join(name);
    assert!(
        program.exists(),
        "target/bin/{name} is missing: run `tools/build` first"
    );
    let mut command = Command::new(top().join("tests/emulated/run"));
    command.arg(program);
    command
}

/// Runs a command at the top of the repository and answers what it prints; any warning is an error.
pub fn run(program: &str, arguments: &[&str]) -> String {
    let output = Command::new(program)
        .args(arguments)
        .current_dir(top())
        .output();
    let output = output.unwrap_or_else(|error| panic!("{program} is needed: {error}"));
    let said = String::from_utf8_lossy(&output.stderr);
    assert!(
        output.status.success() && said.is_empty(),
        "{program} {arguments:?}:\n{said}"
    );
    String::from_utf8(output.stdout).expect("text")
}
