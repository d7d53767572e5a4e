//! A walk by a table.

use super::fields::Head;
use super::{
    admit, faulty, refusal, run, write_record, Fields, MOST_STATES, RECORD_LENGTH, REGISTERS, STACK,
};
use crate::{Placed, Refusal};

/// A kind's size and alignment, and the registers that its size needs.
#[derive(Clone, Copy, Default)]
pub struct Kind {
    size: u8,
    alignment: u8,
    needed: u8,
}

/// A table whose rows stay where they are.
pub struct Table<'a> {
    pub head: Head,
    pub kinds: [Kind; 8],
    pub states: usize,
    transitions: &'a [[u8; 4]],
}

impl<'a> Table<'a> {
    #[inline(never)]
    pub fn read(bytes: &'a [u8]) -> Result<Table<'a>, Refusal> {
        let mut fields = Fields::open(bytes)?;
        let head = fields.head()?;
        let mut kinds = [Kind::default(); 8];
        for kind in &mut kinds[..usize::from(head.kinds)] {
            let (size, alignment) = fields.shape(&head)?;
            *kind = Kind {
                size,
                alignment,
                needed: head.needed(size),
            };
        }
        let states = fields.byte(4, |states| (1..=MOST_STATES).contains(&usize::from(states)))?;
        let count = usize::from(states) * usize::from(head.kinds);
        let (there, rest) = fields.rest.as_chunks();
        let transitions = &there[..count.min(there.len())];
        if !transitions
            .iter()
            .all(|step| is_transition(&head, states, step))
        {
            return Err(refusal(7));
        }
        if transitions.len() < count {
            return Err(refusal(3));
        }
        if there.len() > count || !rest.is_empty() {
            return Err(refusal(6));
        }
        Ok(Table {
            head,
            kinds,
            states: usize::from(states),
            transitions,
        })
    }

    pub fn transition(&self, state: u8, kind: u8) -> [u8; 4] {
        self.transitions[usize::from(state) * usize::from(self.head.kinds) + usize::from(kind)]
    }

    /// Places a list.
    #[inline(never)]
    pub fn place(&self, list: &[u8], out: &mut [u8]) -> Result<Placed, Refusal> {
        admit(list, self.head.kinds, out.len())?;
        let modulus_mask = u32::from(self.head.modulus) - 1;
        let (mut state, mut given, mut p) = (0, 0, 0);
        let records = out.chunks_exact_mut(RECORD_LENGTH);
        for (position, (record, &kind)) in records.zip(list).enumerate() {
            let step @ [form, a, b, next] = self.transition(state, kind);
            let fault = self.fault(kind, step, given);
            if fault != 0 {
                return Err(faulty(position, fault));
            }
            let at = if form == REGISTERS {
                given |= run(a, b);
                u32::from(a)
            } else {
                // The modulus is a power of two.
                let offset = p + (u32::from(a).wrapping_sub(p) & modulus_mask);
                p = offset + u32::from(b);
                offset
            };
            write_record(record, form, at, b);
            state = next;
        }
        Ok(Placed {
            count: list.len(),
            p,
        })
    }

    /// A step's fault, 0 where there is none.
    pub fn fault(&self, kind: u8, [form, a, b, _]: [u8; 4], given: u32) -> u8 {
        let kind = self.kinds[usize::from(kind)];
        match form {
            REGISTERS if given & run(a, b) != 0 => 2,
            REGISTERS if b != kind.needed => 3,
            REGISTERS => 0,
            STACK if b != kind.size => 3,
            STACK if a & (kind.alignment - 1) != 0 => 4,
            STACK => 0,
            _ => 1,
        }
    }
}

fn is_transition(head: &Head, states: u8, &[form, a, b, next]: &[u8; 4]) -> bool {
    match form {
        0 => (a, b, next) == (0, 0, 0),
        REGISTERS => u16::from(a) + u16::from(b) <= u16::from(head.registers) && next < states,
        STACK => a < head.modulus && next < states,
        _ => false,
    }
}
