//! What the calls answer, and how the library's three structs become it.

use std::{error, fmt};

use crate::ffi;

/// A refusal: its number, of docs/FORMAT.md; the position in the list, where placing refuses with 9 or 10; and for 10
/// the fault, which is 0 for every other number.
///
/// ```
/// let sheet = [0, 11, 1, 2, 4, 4, 1, 4, 4, 1, 2, 0, 1];
/// let refusal = teaselram::place_by_rules(&sheet, &[0, 1], &mut [0; 12]).unwrap_err();
/// assert_eq!((refusal.number, refusal.position), (9, Some(1)));
/// assert_eq!(refusal.to_string(), "refused 9 at position 1");
///
/// // A kind that is asked for is in no list.
/// let refusal = teaselram::sheet_kind(&sheet, 1).unwrap_err();
/// assert_eq!((refusal.number, refusal.position), (9, None));
/// assert_eq!(refusal.to_string(), "refused 9");
///
/// // One state that gives register 0 to every argument: the second finds it taken.
/// let table = [0, 12, 1, 1, 4, 4, 1, 4, 4, 1, 1, 0, 1, 0];
/// let refusal = teaselram::place_by_table(&table, &[0, 0], &mut [0; 12]).unwrap_err();
/// assert_eq!((refusal.number, refusal.position, refusal.fault), (10, Some(1), 2));
/// assert_eq!(refusal.to_string(), "refused 10 at position 1, fault 2");
/// ```
#[derive(Debug, Clone, Copy, PartialEq, Eq)]
pub struct Refusal {
    pub number: u8,
    pub position: Option<usize>,
    pub fault: u8,
}

/// The head of a sheet or a table; `states` is 0 for a sheet.
#[derive(Debug, Clone, Copy, PartialEq, Eq)]
pub struct Head {
    pub registers: u8,
    pub width: u8,
    pub modulus: u8,
    pub kinds: u8,
    pub states: u16,
}

/// A kind of a sheet; `starts` are the sheet's own bytes.
#[derive(Debug, Clone, Copy, PartialEq, Eq)]
pub struct SheetKind<'a> {
    pub size: u8,
    pub alignment: u8,
    pub flags: u8,
    pub starts: &'a [u8],
}

/// A kind of a table.
#[derive(Debug, Clone, Copy, PartialEq, Eq)]
pub struct TableKind {
    pub size: u8,
    pub alignment: u8,
}

/// How many arguments were placed, and the final p.
#[derive(Debug, Clone, Copy, PartialEq, Eq)]
pub struct Placed {
    pub count: usize,
    pub p: u32,
}

/// How many states the built table has, and how many bytes.
#[derive(Debug, Clone, Copy, PartialEq, Eq)]
pub struct Built {
    pub states: u16,
    pub length: usize,
}

/// The judge's verdict: no list of kinds goes wrong; or the fault, by its number in docs/FORMAT.md, and the length of the
/// list that shows it.
#[derive(Debug, Clone, Copy, PartialEq, Eq)]
pub enum Verdict {
    Clean,
    Fault { fault: u8, length: usize },
}

impl SheetKind<'_> {
    /// Whether the kind may use the stack: flag 1.
    pub fn may_use_stack(&self) -> bool {
        self.flags & 1 != 0
    }

    /// Whether the kind is closing: flag 2.
    pub fn is_closing(&self) -> bool {
        self.flags & 2 != 0
    }
}

impl fmt::Display for Refusal {
    fn fmt(&self, f: &mut fmt::Formatter<'_>) -> fmt::Result {
        write!(f, "refused {}", self.number)?;
        if let Some(position) = self.position {
            write!(f, " at position {position}")?;
        }
        if self.fault != 0 {
            write!(f, ", fault {}", self.fault)?;
        }
        Ok(())
    }
}

impl error::Error for Refusal {}

impl Refusal {
    /// A refusal that carries its number alone.
    fn numbered(number: u8) -> Self {
        Refusal {
            number,
            position: None,
            fault: 0,
        }
    }
}

impl ffi::Answer {
    /// The answer where its number is 0, its refusal otherwise. Of the calls that answer so, only placing refuses with
    /// 9 or 10, and `count` is then the position.
    pub(crate) fn accepted(self) -> Result<Self, Refusal> {
        match self.number {
            0 => Ok(self),
            9 | 10 => Err(Refusal {
                number: self.number,
                position: Some(usize::from(self.count)),
                fault: self.fault,
            }),
            number => Err(Refusal::numbered(number)),
        }
    }

    pub(crate) fn placed(self) -> Result<Placed, Refusal> {
        self.accepted().map(|answer| Placed {
            count: usize::from(answer.count),
            p: answer.value,
        })
    }

    pub(crate) fn built(self) -> Result<Built, Refusal> {
        self.accepted().map(|answer| Built {
            states: answer.count,
            length: answer.value as usize,
        })
    }

    pub(crate) fn verdict(self) -> Result<Verdict, Refusal> {
        self.accepted().map(|answer| match answer.fault {
            0 => Verdict::Clean,
            fault => Verdict::Fault {
                fault,
                length: usize::from(answer.count),
            },
        })
    }
}

impl ffi::HeadAnswer {
    pub(crate) fn head(self) -> Result<Head, Refusal> {
        match self.number {
            0 => Ok(Head {
                registers: self.registers,
                width: self.width,
                modulus: self.modulus,
                kinds: self.kinds,
                states: self.states,
            }),
            number => Err(Refusal::numbered(number)),
        }
    }
}

impl ffi::KindAnswer {
    /// The answer where its number is 0, its refusal otherwise.
    fn accepted(self) -> Result<Self, Refusal> {
        match self.number {
            0 => Ok(self),
            number => Err(Refusal::numbered(number)),
        }
    }

    pub(crate) fn of_sheet(self, sheet: &[u8]) -> Result<SheetKind<'_>, Refusal> {
        let first = usize::from(self.first_start);
        self.accepted().map(|answer| SheetKind {
            size: answer.size,
            alignment: answer.alignment,
            flags: answer.flags,
            starts: &sheet[first..first + usize::from(answer.starts)],
        })
    }

    pub(crate) fn of_table(self) -> Result<TableKind, Refusal> {
        self.accepted().map(|answer| TableKind {
            size: answer.size,
            alignment: answer.alignment,
        })
    }
}
