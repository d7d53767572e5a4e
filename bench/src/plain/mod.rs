//! What the library does, in plain Rust written for speed: sets of registers are bits, nothing is proved, and placing writes
//! each record as it is found. So a refusal may have written records, which the library's may not.

pub mod build;
mod fields;
pub mod judge;
pub mod sheet;
pub mod table;

use crate::Refusal;
use fields::Fields;

const MOST_ARGUMENTS: usize = 400;
const MOST_STATES: usize = 200;
const RECORD_LENGTH: usize = 6;

const REGISTERS: u8 = 1;
const STACK: u8 = 2;

fn refusal(number: u8) -> Refusal {
    Refusal {
        number,
        position: None,
        fault: 0,
    }
}

/// The set of the registers first to first + count - 1.
fn run(first: u8, count: u8) -> u32 {
    ((1 << count) - 1) << first
}

/// 8, 12 and 9, before any step.
fn admit(kinds: &[u8], known: u8, room: usize) -> Result<(), Refusal> {
    if kinds.len() > MOST_ARGUMENTS {
        return Err(refusal(8));
    }
    if room < kinds.len() * RECORD_LENGTH {
        return Err(refusal(12));
    }
    match kinds.iter().position(|&kind| kind >= known) {
        None => Ok(()),
        position => Err(Refusal {
            position,
            ..refusal(9)
        }),
    }
}

fn faulty(position: usize, fault: u8) -> Refusal {
    Refusal {
        number: 10,
        position: Some(position),
        fault,
    }
}

fn write_record(record: &mut [u8], form: u8, at: u32, count: u8) {
    let at = at.to_be_bytes();
    record.copy_from_slice(&[form, at[0], at[1], at[2], at[3], count]);
}
