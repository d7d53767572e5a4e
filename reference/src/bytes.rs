//! 01, "Bytes of a sheet and of a table": what the two have in common.

use crate::refusal::{ensure, Refusal};

const VERSION: u8 = 1;

/// 01, "Bytes of a sheet and of a table": the head, that is n, w, A and m.
#[derive(Debug, Clone, PartialEq, Eq)]
pub struct Head {
    pub registers: u8,
    pub width: u8,
    pub modulus: u8,
    pub kinds: u8,
}

impl Head {
    /// 01, "Bytes of a sheet and of a table": k, the registers that a kind of this size needs.
    pub(crate) fn needed(&self, size: u8) -> u8 {
        size.div_ceil(self.width)
    }

    /// Whether the registers first to first + count - 1 end at most at n.
    pub(crate) fn holds_run(&self, first: u8, count: u8) -> bool {
        u16::from(first) + u16::from(count) <= u16::from(self.registers)
    }
}

/// The bytes not yet read, from left to right.
pub(crate) struct Cursor<'a> {
    rest: &'a [u8],
}

impl<'a> Cursor<'a> {
    /// Number 1 is tested here, before any other byte is looked at.
    pub(crate) fn open(bytes: &'a [u8]) -> Result<Self, Refusal> {
        let (length, rest) = bytes.split_first_chunk().ok_or(Refusal::LENGTH)?;
        ensure(
            usize::from(u16::from_be_bytes(*length)) == rest.len(),
            Refusal::LENGTH,
        )?;
        let mut cursor = Cursor { rest };
        cursor.field(Refusal::VERSION, |version| version == VERSION)?;
        Ok(cursor)
    }

    pub(crate) fn take<const COUNT: usize>(&mut self) -> Result<[u8; COUNT], Refusal> {
        let (taken, rest) = self.rest.split_first_chunk().ok_or(Refusal::MISSING_BYTE)?;
        self.rest = rest;
        Ok(*taken)
    }

    pub(crate) fn field(
        &mut self,
        refusal: Refusal,
        allowed: impl Fn(u8) -> bool,
    ) -> Result<u8, Refusal> {
        let [value] = self.take()?;
        ensure(allowed(value), refusal)?;
        Ok(value)
    }

    pub(crate) fn head(&mut self) -> Result<Head, Refusal> {
        Ok(Head {
            registers: self.field(Refusal::HEAD, |n| n <= 16)?,
            width: self.field(Refusal::HEAD, |w| matches!(w, 1 | 2 | 4 | 8))?,
            modulus: self.field(Refusal::HEAD, is_power_of_two_to_16)?,
            kinds: self.field(Refusal::HEAD, |m| (1..=8).contains(&m))?,
        })
    }

    pub(crate) fn size(&mut self) -> Result<u8, Refusal> {
        self.field(Refusal::KIND, |size| (1..=64).contains(&size))
    }

    pub(crate) fn alignment(&mut self, head: &Head) -> Result<u8, Refusal> {
        self.field(Refusal::KIND, |alignment| {
            is_power_of_two_to_16(alignment) && alignment <= head.modulus
        })
    }

    /// Number 6 comes last, so this is called when every field has been read.
    pub(crate) fn close(self) -> Result<(), Refusal> {
        ensure(self.rest.is_empty(), Refusal::LEFT_OVER)
    }
}

fn is_power_of_two_to_16(value: u8) -> bool {
    matches!(value, 1 | 2 | 4 | 8 | 16)
}

/// The length, the version and the head, then what `body` yields.
pub(crate) fn framed(head: &Head, body: impl IntoIterator<Item = u8>) -> Vec<u8> {
    let mut bytes = vec![
        0,
        0,
        VERSION,
        head.registers,
        head.width,
        head.modulus,
        head.kinds,
    ];
    bytes.extend(body);
    let length = u16::try_from(bytes.len() - 2).expect("the largest table has 6,424 bytes");
    bytes[..2].copy_from_slice(&length.to_be_bytes());
    bytes
}
