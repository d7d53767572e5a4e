//! The proved library's times beside those of plain Rust programs that do the same, as tables of ratios: `bench/run`.
//! Before anything is timed, both are seen to answer and write the same.

mod building;
mod inputs;
mod judging;
mod placing;
mod plain;
mod reading;
mod timing;

use teaselram::{Built, Placed, Refusal, Verdict};

fn main() {
    if std::env::var_os("TEASELRAM_NATIVE").is_none() {
        eprintln!("bench: run it by bench/run, which makes the library for this machine's own processor");
        std::process::exit(1);
    }
    let inputs = inputs::all();
    reading::report(&inputs);
    placing::report(&inputs);
    building::report(&inputs);
    judging::report(&inputs);
}
