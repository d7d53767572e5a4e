//! Memory lent to a call.

/// On either side of lent memory, so that a write beside it is seen.
const MARGIN: usize = 8;

/// Lent memory between two margins, filled with a pattern beforehand and looked at whole afterwards.
pub struct Lent {
    bytes: Vec<u8>,
}

/// A pattern that no record, table or list has throughout.
fn pattern(at: usize) -> u8 {
    0xA5 ^ (at % 251) as u8
}

impl Lent {
    /// So many bytes of the pattern, and its margins.
    pub fn new(room: usize) -> Self {
        Lent {
            bytes: (0..MARGIN + room + MARGIN).map(pattern).collect(),
        }
    }

    /// What a call is lent.
    pub fn out(&mut self) -> &mut [u8] {
        let end = self.bytes.len() - MARGIN;
        &mut self.bytes[MARGIN..end]
    }

    /// Asserts that the lent memory begins with what a call writes and is otherwise as it was, and so are the margins.
    pub fn assert_holds(&self, written: &[u8]) {
        let mut expected: Vec<u8> = (0..self.bytes.len()).map(pattern).collect();
        expected[MARGIN..MARGIN + written.len()].copy_from_slice(written);
        assert_eq!(self.bytes, expected);
    }
}
