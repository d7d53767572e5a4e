//! 01, "The program".

use crate::build::build;
use crate::judge::{judge, Verdict};
use crate::refusal::{ensure, Refusal};
use crate::table::read_table;

/// 01, "The program": the most bytes of input that are looked at as a sheet.
pub const LONGEST_INPUT: usize = 1024;

/// The room for the largest table: 8 kinds and 200 states.
const TABLE_ROOM: usize = 2 + 1 + 4 + 8 * 2 + 1 + 200 * 8 * 4;

/// The room for the list of a table of 200 states.
const LIST_ROOM: usize = 2 * 200;

/// 01, "The program": the line for an input, of which one byte past the longest is enough.
pub fn line(sheet: &[u8]) -> String {
    match fields(sheet) {
        Ok(fields) => fields.join(" ") + "\n",
        Err(refusal) => format!("refused {}\n", refusal.number),
    }
}

fn fields(sheet: &[u8]) -> Result<Vec<String>, Refusal> {
    ensure(sheet.len() <= LONGEST_INPUT, Refusal::LENGTH)?;
    let bytes = build(sheet, TABLE_ROOM)?;
    let table = read_table(&bytes)?;
    let mut fields = vec![table.rows.len().to_string(), table.kinds.len().to_string()];
    match judge(&bytes, LIST_ROOM)? {
        Verdict::Clean => fields.push("clean".to_string()),
        Verdict::Fault { fault, list } => {
            fields.extend([
                "fault".to_string(),
                fault.to_string(),
                list.len().to_string(),
            ]);
            fields.extend(list.iter().map(u8::to_string));
        }
    }
    Ok(fields)
}
