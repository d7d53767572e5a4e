//! The bytes of a file from left to right.

use super::refusal;
use crate::Refusal;

pub struct Fields<'a> {
    pub rest: &'a [u8],
}

/// n, w, A and m.
#[derive(Clone, Copy, Default)]
pub struct Head {
    pub registers: u8,
    pub width: u8,
    pub modulus: u8,
    pub kinds: u8,
}

impl Head {
    /// The registers that a size of at least 1 needs: the size over w, rounded up.
    pub fn needed(&self, size: u8) -> u8 {
        // A width is a power of two.
        ((size - 1) >> self.width.trailing_zeros()) + 1
    }
}

impl<'a> Fields<'a> {
    pub fn open(bytes: &'a [u8]) -> Result<Self, Refusal> {
        match bytes {
            [high, low, rest @ ..]
                if usize::from(u16::from_be_bytes([*high, *low])) == rest.len() =>
            {
                let mut fields = Fields { rest };
                fields.byte(2, |version| version == 1)?;
                Ok(fields)
            }
            _ => Err(refusal(1)),
        }
    }

    /// The next byte, 3 where it is missing, `number` where it is wrong.
    pub fn byte(&mut self, number: u8, right: impl FnOnce(u8) -> bool) -> Result<u8, Refusal> {
        let (&byte, rest) = self.rest.split_first().ok_or(refusal(3))?;
        self.rest = rest;
        match right(byte) {
            true => Ok(byte),
            false => Err(refusal(number)),
        }
    }

    pub fn head(&mut self) -> Result<Head, Refusal> {
        Ok(Head {
            registers: self.byte(4, |n| n <= 16)?,
            width: self.byte(4, |w| matches!(w, 1 | 2 | 4 | 8))?,
            modulus: self.byte(4, is_alignment)?,
            kinds: self.byte(4, |m| (1..=8).contains(&m))?,
        })
    }

    /// A kind's size and alignment.
    pub fn shape(&mut self, head: &Head) -> Result<(u8, u8), Refusal> {
        let size = self.byte(5, |size| (1..=64).contains(&size))?;
        let alignment = self.byte(5, |it| is_alignment(it) && it <= head.modulus)?;
        Ok((size, alignment))
    }

    pub fn close(self) -> Result<(), Refusal> {
        match self.rest {
            [] => Ok(()),
            _ => Err(refusal(6)),
        }
    }
}

fn is_alignment(byte: u8) -> bool {
    matches!(byte, 1 | 2 | 4 | 8 | 16)
}
