//! The sheets, and the lists that are placed by them.

use reference::samples::{private_registers, Xorshift, S};
use reference::{Head, Sheet, SheetKind};

/// The lengths of lists.
pub const LENGTHS: [usize; 4] = [5, 20, 100, 400];

/// So many lists of each length take turns, so that no branch is learnt by heart.
const LISTS: usize = 32;

/// A sheet with its table and lists of its kinds. Every kind may use the stack, so every list is placed.
pub struct Input {
    pub name: &'static str,
    pub sheet: Vec<u8>,
    pub table: Vec<u8>,
    kinds: u8,
}

impl Input {
    fn new(name: &'static str, sheet: Vec<u8>) -> Self {
        let mut table = vec![0; teaselram::LONGEST_TABLE];
        let built = teaselram::build(&sheet, &mut table).expect("the sheet has a table");
        table.truncate(built.length);
        let head = teaselram::read_sheet(&sheet).expect("the sheet is read");
        Input {
            name,
            sheet,
            table,
            kinds: head.kinds,
        }
    }

    /// The lists of one length, the same at every call.
    pub fn lists(&self, length: usize) -> Vec<Vec<u8>> {
        let random = &mut Xorshift::new(length as u64);
        let list = |_| {
            (0..length)
                .map(|_| random.within(0..=self.kinds - 1))
                .collect()
        };
        (0..LISTS).map(list).collect()
    }
}

/// All sheets.
pub fn all() -> [Input; 3] {
    [
        Input::new("S", S.to_vec()),
        Input::new("sixteen registers", sixteen_registers().bytes()),
        Input::new("seven private registers", private_registers(7).bytes()),
    ]
}

/// Eight registers for words and eight for doubles, of 8 bytes each; pairs of words begin at an even register and close what
/// they skip; small kinds and words share, and a large kind goes to the stack.
fn sixteen_registers() -> Sheet {
    let kind = |size, alignment, flags, starts: Vec<u8>| SheetKind {
        size,
        alignment,
        flags,
        starts,
    };
    let words: Vec<u8> = (0..8).collect();
    let kinds = vec![
        kind(8, 8, 1, words.clone()),
        kind(8, 8, 1, (8..16).collect()),
        kind(16, 16, 3, vec![0, 2, 4, 6]),
        kind(4, 8, 1, words),
        kind(32, 8, 1, vec![]),
    ];
    let head = Head {
        registers: 16,
        width: 8,
        modulus: 16,
        kinds: kinds.len() as u8,
    };
    Sheet { head, kinds }
}
