//! An interpreter of the sheet.

use super::fields::Head;
use super::{admit, faulty, run, write_record, Fields, RECORD_LENGTH, REGISTERS, STACK};
use crate::{Placed, Refusal};

/// A kind, with the runs of its starts worked out when it is read.
#[derive(Clone, Copy, Default)]
pub struct Kind {
    pub size: u8,
    pub alignment: u8,
    may_use_stack: bool,
    closing: bool,
    needed: u8,
    tries: u8,
    starts: [u8; 16],
    runs: [u32; 16],
}

pub struct Sheet {
    pub head: Head,
    kinds: [Kind; 8],
}

/// The unavailable registers, and p.
#[derive(Clone, Copy, Default)]
pub struct Allocation {
    pub unavailable: u32,
    pub p: u32,
}

/// A place: its form, its first register or offset, and its count.
pub type Place = (u8, u32, u8);

impl Sheet {
    pub fn read(bytes: &[u8]) -> Result<Sheet, Refusal> {
        let mut fields = Fields::open(bytes)?;
        let head = fields.head()?;
        let mut kinds = [Kind::default(); 8];
        for kind in &mut kinds[..usize::from(head.kinds)] {
            *kind = Kind::read(&mut fields, &head)?;
        }
        fields.close()?;
        Ok(Sheet { head, kinds })
    }

    pub fn kinds(&self) -> &[Kind] {
        &self.kinds[..usize::from(self.head.kinds)]
    }

    /// Places a list.
    #[inline(never)]
    pub fn place(&self, list: &[u8], out: &mut [u8]) -> Result<Placed, Refusal> {
        admit(list, self.head.kinds, out.len())?;
        let kinds = self.kinds();
        let mut now = Allocation::default();
        let records = out.chunks_exact_mut(RECORD_LENGTH);
        for (position, (record, &kind)) in records.zip(list).enumerate() {
            let (form, at, count) = kinds[usize::from(kind)]
                .place(&mut now)
                .ok_or(faulty(position, 1))?;
            write_record(record, form, at, count);
        }
        Ok(Placed {
            count: list.len(),
            p: now.p,
        })
    }
}

impl Kind {
    fn read(fields: &mut Fields, head: &Head) -> Result<Kind, Refusal> {
        let (size, alignment) = fields.shape(head)?;
        let flags = fields.byte(5, |flags| flags <= 3)?;
        let tries = fields.byte(5, |tries| tries <= 16)?;
        let needed = head.needed(size);
        let mut kind = Kind {
            size,
            alignment,
            may_use_stack: flags & 1 != 0,
            closing: flags & 2 != 0,
            needed,
            tries,
            ..Kind::default()
        };
        for at in 0..usize::from(tries) {
            let fits =
                |start: u8| u16::from(start) + u16::from(needed) <= u16::from(head.registers);
            kind.starts[at] = fields.byte(5, fits)?;
            kind.runs[at] = run(kind.starts[at], needed);
        }
        Ok(kind)
    }

    /// Places one argument; where there is no place, nothing changes.
    pub fn place(&self, now: &mut Allocation) -> Option<Place> {
        let runs = &self.runs[..usize::from(self.tries)];
        let mut skipped = 0;
        for (run, &start) in runs.iter().zip(&self.starts) {
            if now.unavailable & run == 0 {
                now.unavailable |= run | if self.closing { skipped } else { 0 };
                return Some((REGISTERS, u32::from(start), self.needed));
            }
            skipped |= run;
        }
        if !self.may_use_stack {
            return None;
        }
        if self.closing {
            now.unavailable |= skipped;
        }
        // An alignment is a power of two.
        let mask = u32::from(self.alignment) - 1;
        let offset = (now.p + mask) & !mask;
        now.p = offset + u32::from(self.size);
        Some((STACK, offset, self.size))
    }
}
