//! Safe Rust over the proved static library. Each call takes slices and answers a `Result`; what it means is told in docs/FORMAT.md.
//! A refusal leaves `out` as it was, and a success leaves the bytes after what it writes untouched.
//!
//! ```
//! # fn main() -> Result<(), teaselram::Refusal> {
//! use teaselram::{Built, Placed, Verdict};
//!
//! // Two registers of 4 bytes, stack modulus 4, one kind: 4 bytes, alignment 4, may use the stack, starts 0 and 1.
//! let sheet = [0, 11, 1, 2, 4, 4, 1, 4, 4, 1, 2, 0, 1];
//!
//! let mut table = [0; teaselram::LONGEST_TABLE];
//! let built = teaselram::build(&sheet, &mut table)?;
//! assert_eq!(built, Built { states: 3, length: 22 });
//! let table = &table[..built.length];
//!
//! let mut list = [0; teaselram::LONGEST_LIST];
//! assert_eq!(teaselram::judge(table, &mut list)?, Verdict::Clean);
//!
//! // Registers 0 and 1, then stack bytes 0 to 3.
//! let mut records = [0; 3 * teaselram::RECORD_LENGTH];
//! let placed = teaselram::place_by_table(table, &[0, 0, 0], &mut records)?;
//! assert_eq!(placed, Placed { count: 3, p: 4 });
//! assert_eq!(records, [1, 0, 0, 0, 0, 1, 1, 0, 0, 0, 1, 1, 2, 0, 0, 0, 0, 4]);
//! # Ok(())
//! # }
//! ```

mod answers;
mod ffi;

pub use answers::{Built, Head, Placed, Refusal, SheetKind, TableKind, Verdict};

/// The most arguments that a call places.
pub const MOST_ARGUMENTS: usize = 400;

/// The bytes of one argument's record: form, first register or offset in four bytes, count.
pub const RECORD_LENGTH: usize = 6;

/// The most states of a table.
pub const MOST_STATES: usize = 200;

/// The bytes of the longest table, which has 8 kinds and 200 states.
pub const LONGEST_TABLE: usize = 6424;

/// The room that judging needs for a table of 200 states: two bytes a state.
pub const LONGEST_LIST: usize = 2 * MOST_STATES;

/// Reads a sheet: its head, or refusals 1 to 6.
///
/// ```
/// let sheet = [0, 11, 1, 2, 4, 4, 1, 4, 4, 1, 2, 0, 1];
/// let head = teaselram::read_sheet(&sheet).unwrap();
/// assert_eq!((head.registers, head.width, head.modulus, head.kinds), (2, 4, 4, 1));
/// assert_eq!(teaselram::read_sheet(&sheet[..12]).unwrap_err().number, 1);
/// ```
pub fn read_sheet(sheet: &[u8]) -> Result<Head, Refusal> {
    // SAFETY: the pointer and the length are a slice's; the library only reads it and keeps nothing.
    unsafe { ffi::teaselram_read_sheet(sheet.as_ptr(), sheet.len()) }.head()
}

/// Reads a table: its head and the number of its states, or refusals 1 to 7.
///
/// ```
/// let table = [0, 12, 1, 1, 4, 4, 1, 4, 4, 1, 2, 0, 4, 0];
/// assert_eq!(teaselram::read_table(&table).unwrap().states, 1);
/// ```
pub fn read_table(table: &[u8]) -> Result<Head, Refusal> {
    // SAFETY: the pointer and the length are a slice's; the library only reads it and keeps nothing.
    unsafe { ffi::teaselram_read_table(table.as_ptr(), table.len()) }.head()
}

/// A kind of a sheet, numbered from 0; its starts are a part of `sheet`, no copy. Refuses as reading does, then with 9 where
/// the sheet has no such kind.
///
/// ```
/// let sheet = [0, 11, 1, 2, 4, 4, 1, 4, 4, 1, 2, 0, 1];
/// let kind = teaselram::sheet_kind(&sheet, 0).unwrap();
/// assert_eq!((kind.size, kind.alignment, kind.starts), (4, 4, &[0, 1][..]));
/// assert!(kind.may_use_stack() && !kind.is_closing());
/// assert_eq!(teaselram::sheet_kind(&sheet, 1).unwrap_err().number, 9);
/// ```
pub fn sheet_kind(sheet: &[u8], kind: u64) -> Result<SheetKind<'_>, Refusal> {
    // SAFETY: the pointer and the length are a slice's; the library only reads it and keeps nothing.
    unsafe { ffi::teaselram_sheet_kind(sheet.as_ptr(), sheet.len(), kind) }.of_sheet(sheet)
}

/// A kind of a table, numbered from 0. Refuses as reading does, then with 9 where the table has no such kind.
///
/// ```
/// let table = [0, 12, 1, 1, 4, 4, 1, 4, 4, 1, 2, 0, 4, 0];
/// let kind = teaselram::table_kind(&table, 0).unwrap();
/// assert_eq!((kind.size, kind.alignment), (4, 4));
/// assert_eq!(teaselram::table_kind(&table, 1).unwrap_err().number, 9);
/// ```
pub fn table_kind(table: &[u8], kind: u64) -> Result<TableKind, Refusal> {
    // SAFETY: the pointer and the length are a slice's; the library only reads it and keeps nothing.
    unsafe { ffi::teaselram_table_kind(table.as_ptr(), table.len(), kind) }.of_table()
}

/// The bytes of one state's row, four for each kind: a part of `table`, no copy. Refuses as reading does, then with 13.
///
/// ```
/// let table = [0, 12, 1, 1, 4, 4, 1, 4, 4, 1, 2, 0, 4, 0];
/// assert_eq!(teaselram::row(&table, 0), Ok(&[2, 0, 4, 0][..]));
/// assert_eq!(teaselram::row(&table, 1).unwrap_err().number, 13);
/// ```
pub fn row(table: &[u8], state: u64) -> Result<&[u8], Refusal> {
    // SAFETY: the pointer and the length are a slice's; the library only reads it and keeps nothing.
    let answer = unsafe { ffi::teaselram_row(table.as_ptr(), table.len(), state) }.accepted()?;
    let start = answer.value as usize;
    Ok(&table[start..start + usize::from(answer.count)])
}

/// Places a list of kinds by the rules of a sheet; the records stand in the first bytes of `out`, six an argument.
/// Refuses as reading the sheet does, then with 8, 12, 9, 10.
///
/// ```
/// let sheet = [0, 11, 1, 2, 4, 4, 1, 4, 4, 1, 2, 0, 1];
/// let mut records = [0; 6];
/// let placed = teaselram::place_by_rules(&sheet, &[0], &mut records).unwrap();
/// assert_eq!((placed.count, placed.p, records), (1, 0, [1, 0, 0, 0, 0, 1]));
/// ```
pub fn place_by_rules(sheet: &[u8], kinds: &[u8], out: &mut [u8]) -> Result<Placed, Refusal> {
    // SAFETY: each pointer and length are a slice's; the library reads the first two, writes nothing but `out`, which is
    // borrowed alone and so overlaps neither, and keeps nothing.
    unsafe {
        ffi::teaselram_place_by_rules(
            sheet.as_ptr(),
            sheet.len(),
            kinds.as_ptr(),
            kinds.len(),
            out.as_mut_ptr(),
            out.len(),
        )
    }
    .placed()
}

/// Places a list of kinds by a table; the records stand in the first bytes of `out`, six an argument.
/// Refuses as reading the table does, then with 8, 12, 9, 10.
///
/// ```
/// let table = [0, 12, 1, 1, 4, 4, 1, 4, 4, 1, 2, 0, 4, 0];
/// let mut records = [0; 12];
/// let placed = teaselram::place_by_table(&table, &[0, 0], &mut records).unwrap();
/// assert_eq!((placed.count, placed.p), (2, 8));
/// assert_eq!(records, [2, 0, 0, 0, 0, 4, 2, 0, 0, 0, 4, 4]);
/// ```
pub fn place_by_table(table: &[u8], kinds: &[u8], out: &mut [u8]) -> Result<Placed, Refusal> {
    // SAFETY: each pointer and length are a slice's; the library reads the first two, writes nothing but `out`, which is
    // borrowed alone and so overlaps neither, and keeps nothing.
    unsafe {
        ffi::teaselram_place_by_table(
            table.as_ptr(),
            table.len(),
            kinds.as_ptr(),
            kinds.len(),
            out.as_mut_ptr(),
            out.len(),
        )
    }
    .placed()
}

/// Builds the table of a sheet, in the first bytes of `out`; [`LONGEST_TABLE`] bytes hold any.
/// Refuses as reading the sheet does, then with 11, 12.
///
/// ```
/// let sheet = [0, 11, 1, 2, 4, 4, 1, 4, 4, 1, 2, 0, 1];
/// let mut table = [0; teaselram::LONGEST_TABLE];
/// let built = teaselram::build(&sheet, &mut table).unwrap();
/// assert_eq!((built.states, built.length), (3, 22));
/// assert_eq!(teaselram::row(&table[..22], 0), Ok(&[1, 0, 1, 1][..]));
/// ```
pub fn build(sheet: &[u8], out: &mut [u8]) -> Result<Built, Refusal> {
    // SAFETY: each pointer and length are a slice's; the library reads the first, writes nothing but `out`, which is
    // borrowed alone and so does not overlap it, and keeps nothing.
    unsafe { ffi::teaselram_build(sheet.as_ptr(), sheet.len(), out.as_mut_ptr(), out.len()) }
        .built()
}

/// Judges a table: clean, or the fault that some list of kinds meets, with the shortest such list, the earliest in kind
/// order, in the first bytes of `out`. [`LONGEST_LIST`] bytes are room enough for any table; two bytes a state are needed.
/// Refuses as reading the table does, then with 12.
///
/// ```
/// use teaselram::Verdict;
///
/// // One state that gives register 0 to every argument: the second finds it taken.
/// let table = [0, 12, 1, 1, 4, 4, 1, 4, 4, 1, 1, 0, 1, 0];
/// let mut list = [9; 2];
/// let verdict = teaselram::judge(&table, &mut list);
/// assert_eq!(verdict, Ok(Verdict::Fault { fault: 2, length: 2 }));
/// assert_eq!(list, [0, 0]);
///
/// // A kind of 8 bytes that is given three registers of 4 bytes, where it needs exactly two.
/// let table = [0, 16, 1, 4, 4, 8, 1, 8, 8, 2, 1, 0, 3, 1, 2, 0, 8, 1];
/// let mut list = [9; 4];
/// let verdict = teaselram::judge(&table, &mut list);
/// assert_eq!(verdict, Ok(Verdict::Fault { fault: 3, length: 1 }));
/// assert_eq!(list, [0, 9, 9, 9]);
/// ```
pub fn judge(table: &[u8], out: &mut [u8]) -> Result<Verdict, Refusal> {
    // SAFETY: each pointer and length are a slice's; the library reads the first, writes nothing but `out`, which is
    // borrowed alone and so does not overlap it, and keeps nothing.
    unsafe { ffi::teaselram_judge(table.as_ptr(), table.len(), out.as_mut_ptr(), out.len()) }
        .verdict()
}
