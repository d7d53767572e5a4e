//! Building tables, reading the sheet included.

use std::hint::black_box;

use crate::inputs::Input;
use crate::plain::{build::build, sheet::Sheet};
use crate::timing::medians;
use crate::{Built, Refusal};

fn plain(sheet: &[u8], out: &mut [u8]) -> Result<Built, Refusal> {
    build(&Sheet::read(sheet)?, out)
}

/// Prints the table.
pub fn report(inputs: &[Input]) {
    println!("\n### Building, ns a table\n");
    println!("| sheet | states | library | plain | ratio |");
    println!("|---|---|---|---|---|");
    for input in inputs {
        let [mut one, mut other] = [(); 2].map(|_| vec![0; teaselram::LONGEST_TABLE]);
        let built = teaselram::build(&input.sheet, &mut one).expect("the sheet has a table");
        assert_eq!(plain(&input.sheet, &mut other), Ok(built));
        assert_eq!(one[..built.length], other[..built.length]);
        let sheet = &input.sheet;
        let [library, plain] = medians([
            &mut || _ = black_box(teaselram::build(black_box(sheet), &mut one)),
            &mut || _ = black_box(plain(black_box(sheet), &mut other)),
        ]);
        let ratio = library / plain;
        println!(
            "| {} | {} | {library:.0} | {plain:.0} | {ratio:.2} |",
            input.name, built.states
        );
    }
}
