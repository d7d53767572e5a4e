//! Reading sheets and tables.

use std::hint::black_box;

use crate::inputs::Input;
use crate::plain::{sheet::Sheet, table::Table};
use crate::timing::medians;

fn line(name: &str, file: &str, length: usize, [library, plain]: [f64; 2]) {
    let ratio = library / plain;
    println!("| {name} | {file} | {length} | {library:.0} | {plain:.0} | {ratio:.2} |");
}

/// Prints the table.
pub fn report(inputs: &[Input]) {
    println!("\n### Reading, ns a file\n");
    println!("| sheet | file | bytes | library | plain | ratio |");
    println!("|---|---|---|---|---|---|");
    for Input {
        name, sheet, table, ..
    } in inputs
    {
        let times = medians([
            &mut || _ = black_box(teaselram::read_sheet(black_box(sheet))),
            &mut || _ = black_box(Sheet::read(black_box(sheet))),
        ]);
        line(name, "sheet", sheet.len(), times);
        let times = medians([
            &mut || _ = black_box(teaselram::read_table(black_box(table))),
            &mut || _ = black_box(Table::read(black_box(table))),
        ]);
        line(name, "table", table.len(), times);
    }
}
