//! The builder of a sheet's table.

use super::sheet::{Allocation, Sheet};
use super::{refusal, MOST_STATES, STACK};
use crate::{Built, Refusal};

/// More than twice the most states, so that a free slot is near.
const SLOTS: usize = 512;

/// The states as first met, and where each is found: an allocation state is its registers and, above them, p mod A.
struct Met {
    states: [u32; MOST_STATES],
    count: usize,
    /// A state's number plus 1; 0 where a slot is free.
    slots: [u8; SLOTS],
}

impl Met {
    fn new() -> Self {
        let mut met = Met {
            states: [0; MOST_STATES],
            count: 0,
            slots: [0; SLOTS],
        };
        _ = met.number(0);
        met
    }

    /// The number of a state, new or not; none where it is one too many.
    fn number(&mut self, state: u32) -> Option<u8> {
        let mut slot = (state.wrapping_mul(0x9E37_79B9) >> 23) as usize;
        while self.slots[slot] != 0 {
            let number = self.slots[slot] - 1;
            if self.states[usize::from(number)] == state {
                return Some(number);
            }
            slot = (slot + 1) % SLOTS;
        }
        let number = self.count;
        *self.states.get_mut(number)? = state;
        self.count += 1;
        self.slots[slot] = number as u8 + 1;
        Some(number as u8)
    }
}

/// Builds a sheet's table in the first bytes of `out`, which hold the longest: the rows are written as they are found.
#[inline(never)]
pub fn build(sheet: &Sheet, out: &mut [u8]) -> Result<Built, Refusal> {
    let head = &sheet.head;
    let mut end = 7;
    for kind in sheet.kinds() {
        out[end..end + 2].copy_from_slice(&[kind.size, kind.alignment]);
        end += 2;
    }
    let states_at = end;
    end += 1;
    let modulus_mask = u32::from(head.modulus) - 1;
    let mut met = Met::new();
    let mut state = 0;
    while state < met.count {
        let from = Allocation {
            unavailable: met.states[state] & 0xFFFF,
            p: met.states[state] >> 16,
        };
        for kind in sheet.kinds() {
            let mut to = from;
            let step = match kind.place(&mut to) {
                None => [0; 4],
                Some((form, at, count)) => {
                    let next = to.unavailable | (to.p & modulus_mask) << 16;
                    let next = met.number(next).ok_or(refusal(11))?;
                    let a = if form == STACK { at & modulus_mask } else { at };
                    [form, a as u8, count, next]
                }
            };
            out[end..end + 4].copy_from_slice(&step);
            end += 4;
        }
        state += 1;
    }
    out[states_at] = met.count as u8;
    let [high, low] = ((end - 2) as u16).to_be_bytes();
    out[..7].copy_from_slice(&[
        high,
        low,
        1,
        head.registers,
        head.width,
        head.modulus,
        head.kinds,
    ]);
    Ok(Built {
        states: met.count as u16,
        length: end,
    })
}
