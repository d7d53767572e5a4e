//! 01, "Placing by the rules".

use crate::bytes::Head;
use crate::placement::{admit, records, run, Placed, Placement};
use crate::refusal::Refusal;
use crate::sheet::{read_sheet, SheetKind};

/// The fault of an argument for which the rules find no place.
const NO_PLACE_FAULT: u8 = 1;

/// What the rules remember from one argument to the next.
#[derive(Clone, Copy, Default)]
pub(crate) struct Allocation {
    pub(crate) unavailable: u32,
    pub(crate) p: u32,
}

impl Allocation {
    /// Places one argument; where there is no place, nothing changes.
    pub(crate) fn step(&mut self, head: &Head, kind: &SheetKind) -> Option<Placement> {
        let count = head.needed(kind.size);
        let taken = kind
            .starts
            .iter()
            .position(|&start| self.unavailable & run(start, count) == 0);
        let placement = match taken {
            Some(index) => Placement::Registers {
                first: kind.starts[index],
                count,
            },
            None if kind.may_use_stack() => self.push(kind),
            None => return None,
        };
        let tried = &kind.starts[..taken.unwrap_or(kind.starts.len())];
        let closed = if kind.is_closing() { tried } else { &[] };
        for &start in closed.iter().chain(taken.map(|index| &kind.starts[index])) {
            self.unavailable |= run(start, count);
        }
        Some(placement)
    }

    fn push(&mut self, kind: &SheetKind) -> Placement {
        let offset = self.p.next_multiple_of(u32::from(kind.alignment));
        self.p = offset + u32::from(kind.size);
        Placement::Stack {
            offset,
            count: kind.size,
        }
    }
}

/// 01, "Placing by the rules": places a list of kinds by a sheet into `room` bytes.
pub fn place_by_rules(sheet: &[u8], kinds: &[u8], room: usize) -> Result<Placed, Refusal> {
    let sheet = read_sheet(sheet)?;
    admit(kinds, sheet.head.kinds, room)?;
    let mut allocation = Allocation::default();
    let records = records(kinds, |kind| {
        allocation
            .step(&sheet.head, &sheet.kinds[kind])
            .ok_or(NO_PLACE_FAULT)
    })?;
    Ok(Placed {
        records,
        count: kinds.len(),
        p: allocation.p,
    })
}
