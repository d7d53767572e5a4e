//! The proved library and the second program side by side, for the tests: `compare` has each call, `Lent` the memory lent to
//! it, `damage` what spoils a file, `kinds` one kind of a file, `tables` tables made for the judge, `raw` the answers with all
//! their fields, and `machine` the archive and the programs as this machine runs them.

use std::env;

use reference::{samples::Most, Refusal};

pub mod compare;
mod damage;
pub mod kinds;
mod lent;
pub mod machine;
pub mod raw;
pub mod tables;

pub use damage::damage;
pub use lent::Lent;

/// The bounds of most seeded files: all that 01 allows, but for the number of states.
pub const MOST: Most = Most {
    registers: 16,
    kinds: 8,
    states: 20,
};

/// How many rounds a seeded test goes: `base` of them, times the environment's TEASELRAM_ROUNDS.
pub fn rounds(base: usize) -> usize {
    match env::var("TEASELRAM_ROUNDS") {
        Ok(times) => base * times.parse::<usize>().expect("a number of rounds"),
        Err(_) => base,
    }
}

/// A refusal of the second program's.
pub fn refused(number: u8, position: usize, fault: u8) -> Refusal {
    Refusal {
        number,
        position,
        fault,
    }
}

/// How often each number was answered; success counts as 0.
#[derive(Default)]
pub struct Numbers([usize; 14]);

impl Numbers {
    /// Counts one answer.
    pub fn note<T>(&mut self, answer: &Result<T, Refusal>) {
        self.count(answer.as_ref().err().map_or(0, |refusal| refusal.number));
    }

    /// Counts one answer by its number.
    pub fn count(&mut self, number: u8) {
        self.0[usize::from(number)] += 1;
    }

    /// Asserts that these numbers were answered, each so often, and no others.
    pub fn assert_reached(&self, numbers: &[u8], at_least: usize) {
        for (number, &count) in (0..).zip(&self.0) {
            if numbers.contains(&number) {
                assert!(count >= at_least, "number {number} only {count} times");
            } else {
                assert_eq!(count, 0, "number {number}");
            }
        }
    }
}
