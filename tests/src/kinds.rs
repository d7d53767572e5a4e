//! One kind of a file, by what the second program reads of the whole file.

use reference::{Refusal, SheetKind, TableKind};

use crate::refused;

/// A sheet's kind, and where in the sheet its first start stands or would stand.
pub fn of_sheet(sheet: &[u8], kind: u64) -> Result<(SheetKind, usize), Refusal> {
    let kinds = reference::read_sheet(sheet)?.kinds;
    let number = known(kind, kinds.len())?;
    let before = kinds[..number].iter().map(|kind| 4 + kind.starts.len());
    let first_start = 7 + before.sum::<usize>() + 4;
    Ok((kinds[number].clone(), first_start))
}

/// A table's kind.
pub fn of_table(table: &[u8], kind: u64) -> Result<TableKind, Refusal> {
    let kinds = reference::read_table(table)?.kinds;
    known(kind, kinds.len()).map(|number| kinds[number].clone())
}

/// The number of a kind of which there are so many, or 9.
fn known(kind: u64, kinds: usize) -> Result<usize, Refusal> {
    match usize::try_from(kind) {
        Ok(number) if number < kinds => Ok(number),
        _ => Err(refused(9, 0, 0)),
    }
}

/// The kinds that are asked for of a file with so many: each, the two after them, and numbers that are one of them again
/// where a narrower number wraps round.
pub fn asked(kinds: u8) -> impl Iterator<Item = u64> {
    let far = [255, 1 << 8, 1 << 16, 1 << 32, 1 << 63, u64::MAX];
    (0..=u64::from(kinds) + 1).chain(far)
}
