//! 01, "Answer numbers": placements, their records, and what both placing calls share.

use crate::refusal::{ensure, Refusal};
use crate::table::{REGISTERS, STACK};

const MOST_ARGUMENTS: usize = 400;
const RECORD_LENGTH: usize = 6;

/// 01, "Answer numbers": what placing answers, and the records it writes.
#[derive(Debug, Clone, PartialEq, Eq)]
pub struct Placed {
    pub records: Vec<u8>,
    pub count: usize,
    pub p: u32,
}

/// A place found; "none" is the `Option` or the fault around it.
#[derive(Clone, Copy)]
pub(crate) enum Placement {
    Registers { first: u8, count: u8 },
    Stack { offset: u32, count: u8 },
}

impl Placement {
    fn record(self) -> [u8; RECORD_LENGTH] {
        let (form, at, count) = match self {
            Placement::Registers { first, count } => (REGISTERS, u32::from(first), count),
            Placement::Stack { offset, count } => (STACK, offset, count),
        };
        let [at0, at1, at2, at3] = at.to_be_bytes();
        [form, at0, at1, at2, at3, count]
    }
}

/// The set of the registers first to first + count - 1.
pub(crate) fn run(first: u8, count: u8) -> u32 {
    ((1 << count) - 1) << first
}

/// The refusals of placing that come before any step: 8, 12 and 9, in this order.
pub(crate) fn admit(kinds: &[u8], known: u8, room: usize) -> Result<(), Refusal> {
    ensure(kinds.len() <= MOST_ARGUMENTS, Refusal::TOO_MANY_ARGUMENTS)?;
    ensure(room >= kinds.len() * RECORD_LENGTH, Refusal::SHORT_OUTPUT)?;
    match kinds.iter().position(|&kind| kind >= known) {
        Some(position) => Err(Refusal::no_such_kind(position)),
        None => Ok(()),
    }
}

/// The records of all steps, or number 10 at the first step with a fault.
pub(crate) fn records(
    kinds: &[u8],
    mut step: impl FnMut(usize) -> Result<Placement, u8>,
) -> Result<Vec<u8>, Refusal> {
    let mut records = Vec::with_capacity(kinds.len() * RECORD_LENGTH);
    for (position, &kind) in kinds.iter().enumerate() {
        let placement =
            step(usize::from(kind)).map_err(|fault| Refusal::faulty_step(position, fault))?;
        records.extend(placement.record());
    }
    Ok(records)
}
