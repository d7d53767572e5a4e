//! The second program: an interpreter of document 01 with what document 02 replaces in it, written
//! from these documents alone.
//!
//! One module stands for each part of 01; every public item names its section there. What 02
//! replaces names the request.

mod build;
mod bytes;
mod judge;
mod line;
mod placement;
mod refusal;
mod rules;
pub mod samples;
mod sheet;
mod table;
mod walk;

pub use build::{allocation_states, build};
pub use bytes::Head;
pub use judge::{judge, Verdict};
pub use line::{line, LONGEST_INPUT};
pub use placement::Placed;
pub use refusal::Refusal;
pub use rules::place_by_rules;
pub use sheet::{read_sheet, Sheet, SheetKind};
pub use table::{read_table, row, Table, TableKind, Transition};
pub use walk::place_by_table;
