//! 01, "Bytes of a sheet and of a table": the sheet.

use crate::bytes::{framed, Cursor, Head};
use crate::refusal::Refusal;

const MAY_USE_STACK: u8 = 1;
const CLOSING: u8 = 2;

/// 01, "Bytes of a sheet and of a table": a sheet kind.
#[derive(Debug, Clone, PartialEq, Eq)]
pub struct SheetKind {
    pub size: u8,
    pub alignment: u8,
    pub flags: u8,
    pub starts: Vec<u8>,
}

/// 01, "Bytes of a sheet and of a table": a sheet that was read.
#[derive(Debug, Clone, PartialEq, Eq)]
pub struct Sheet {
    pub head: Head,
    pub kinds: Vec<SheetKind>,
}

impl SheetKind {
    pub(crate) fn may_use_stack(&self) -> bool {
        self.flags & MAY_USE_STACK != 0
    }

    pub(crate) fn is_closing(&self) -> bool {
        self.flags & CLOSING != 0
    }

    fn bytes(&self) -> Vec<u8> {
        let count = u8::try_from(self.starts.len()).expect("a kind has at most 16 starts");
        [
            &[self.size, self.alignment, self.flags, count],
            &self.starts[..],
        ]
        .concat()
    }
}

impl Sheet {
    /// 01, "Bytes of a sheet and of a table": the bytes that read as this sheet.
    pub fn bytes(&self) -> Vec<u8> {
        framed(&self.head, self.kinds.iter().flat_map(SheetKind::bytes))
    }
}

/// 01, "Bytes of a sheet and of a table": reading a sheet.
pub fn read_sheet(bytes: &[u8]) -> Result<Sheet, Refusal> {
    let mut cursor = Cursor::open(bytes)?;
    let head = cursor.head()?;
    let kinds = (0..head.kinds)
        .map(|_| read_kind(&mut cursor, &head))
        .collect::<Result<_, _>>()?;
    cursor.close()?;
    Ok(Sheet { head, kinds })
}

fn read_kind(cursor: &mut Cursor, head: &Head) -> Result<SheetKind, Refusal> {
    let size = cursor.size()?;
    let alignment = cursor.alignment(head)?;
    let flags = cursor.field(Refusal::KIND, |flags| flags <= MAY_USE_STACK + CLOSING)?;
    let count = cursor.field(Refusal::KIND, |t| t <= 16)?;
    let mut kind = SheetKind {
        size,
        alignment,
        flags,
        starts: Vec::new(),
    };
    let needed = head.needed(size);
    for _ in 0..count {
        let start = cursor.field(Refusal::KIND, |start| head.holds_run(start, needed))?;
        kind.starts.push(start);
    }
    Ok(kind)
}
