//! 01, "The built table".

use std::collections::HashMap;

use crate::bytes::Head;
use crate::placement::Placement;
use crate::refusal::{ensure, Refusal};
use crate::rules::Allocation;
use crate::sheet::{read_sheet, Sheet, SheetKind};
use crate::table::{Table, TableKind, Transition, MOST_STATES, NO_PLACE, REGISTERS, STACK};

/// The transition where the rules find no place.
const NOWHERE: Transition = Transition {
    form: NO_PLACE,
    a: 0,
    b: 0,
    next: 0,
};

/// The set of unavailable registers with p mod A.
type AllocationState = (u32, u8);

/// The allocation states in the order in which they were first met.
struct Numbering {
    states: Vec<AllocationState>,
    numbers: HashMap<AllocationState, u8>,
}

impl Numbering {
    fn new() -> Self {
        let first = (0, 0);
        Numbering {
            states: vec![first],
            numbers: HashMap::from([(first, 0)]),
        }
    }

    fn number(&mut self, state: AllocationState) -> Result<u8, Refusal> {
        if let Some(&number) = self.numbers.get(&state) {
            return Ok(number);
        }
        let number = u8::try_from(self.states.len()).map_err(|_| Refusal::TOO_MANY_STATES)?;
        ensure(number < MOST_STATES, Refusal::TOO_MANY_STATES)?;
        self.states.push(state);
        self.numbers.insert(state, number);
        Ok(number)
    }

    fn transition(
        &mut self,
        head: &Head,
        (unavailable, remainder): AllocationState,
        kind: &SheetKind,
    ) -> Result<Transition, Refusal> {
        // Every alignment divides A, so p mod A tells residue and next remainder as p itself would.
        let mut allocation = Allocation {
            unavailable,
            p: u32::from(remainder),
        };
        let Some(placement) = allocation.step(head, kind) else {
            return Ok(NOWHERE);
        };
        let (form, a, b) = match placement {
            Placement::Registers { first, count } => (REGISTERS, first, count),
            Placement::Stack { offset, count } => (STACK, by_modulus(offset, head), count),
        };
        let next = self.number((allocation.unavailable, by_modulus(allocation.p, head)))?;
        Ok(Transition { form, a, b, next })
    }
}

fn by_modulus(offset: u32, head: &Head) -> u8 {
    (offset % u32::from(head.modulus)) as u8
}

/// Goes through the states by number; the states still to come are those met but without a row.
fn explore(sheet: &Sheet) -> Result<(Numbering, Vec<Vec<Transition>>), Refusal> {
    let mut numbering = Numbering::new();
    let mut rows = Vec::new();
    while let Some(&state) = numbering.states.get(rows.len()) {
        let step = |kind| numbering.transition(&sheet.head, state, kind);
        rows.push(sheet.kinds.iter().map(step).collect::<Result<_, _>>()?);
    }
    Ok((numbering, rows))
}

/// 01, "The built table": the allocation states by number, each a set of registers and p mod A, or 11.
pub fn allocation_states(sheet: &Sheet) -> Result<Vec<(u32, u8)>, Refusal> {
    let (numbering, _) = explore(sheet)?;
    Ok(numbering.states)
}

/// 01, "The built table": the bytes of the table built from a sheet, where `room` bytes hold them.
pub fn build(sheet: &[u8], room: usize) -> Result<Vec<u8>, Refusal> {
    let sheet = read_sheet(sheet)?;
    let (_, rows) = explore(&sheet)?;
    let copied = |kind: &SheetKind| TableKind {
        size: kind.size,
        alignment: kind.alignment,
    };
    let kinds = sheet.kinds.iter().map(copied).collect();
    let head = sheet.head;
    let bytes = Table { head, kinds, rows }.bytes();
    ensure(room >= bytes.len(), Refusal::SHORT_OUTPUT)?;
    Ok(bytes)
}
