//! Placing by the rules and by a table.

use std::hint::black_box;

use crate::inputs::{Input, LENGTHS};
use crate::plain::{sheet::Sheet, table::Table};
use crate::timing::medians;
use crate::{Placed, Refusal};

/// Something that places a list.
type Placer<'a> = &'a dyn Fn(&[u8], &mut [u8]) -> Result<Placed, Refusal>;

/// The ways to place by one file: the library's call, which reads the file each time; its reading alone; the plain program
/// with reading; and the plain program with the file read before.
struct Ways<'a> {
    library: Placer<'a>,
    library_reading: &'a dyn Fn(),
    plain: Placer<'a>,
    plain_placing: Placer<'a>,
}

/// The times of placing one list in nanoseconds. What the library takes without reading is a difference.
struct Times {
    library: f64,
    plain: f64,
    library_placing: f64,
    plain_placing: f64,
}

impl Times {
    /// With reading and without.
    fn of_library(&self) -> [f64; 2] {
        [self.library, self.library_placing]
    }

    fn of_plain(&self) -> [f64; 2] {
        [self.plain, self.plain_placing]
    }
}

impl Ways<'_> {
    /// Asserts that all ways place alike.
    fn assert_same(&self, list: &[u8]) {
        let place = |placer: Placer| {
            let mut out = vec![0; 6 * list.len()];
            (placer(list, &mut out), out)
        };
        let library = place(self.library);
        assert_eq!(place(self.plain), library);
        assert_eq!(place(self.plain_placing), library);
    }
}

/// A job that places every list.
fn place_all<'a>(placer: Placer<'a>, lists: &'a [Vec<u8>]) -> impl FnMut() + 'a {
    let mut out = vec![0; 6 * lists[0].len()];
    move || {
        for list in lists {
            _ = black_box(placer(black_box(list), &mut out));
        }
    }
}

/// The times of two sets of ways, which all take turns.
fn times([one, other]: [&Ways; 2], lists: &[Vec<u8>]) -> [Times; 2] {
    for list in lists {
        one.assert_same(list);
        other.assert_same(list);
    }
    let [a, b, c, d, e, f, g, h] = medians([
        &mut place_all(one.library, lists),
        &mut || (one.library_reading)(),
        &mut place_all(one.plain, lists),
        &mut place_all(one.plain_placing, lists),
        &mut place_all(other.library, lists),
        &mut || (other.library_reading)(),
        &mut place_all(other.plain, lists),
        &mut place_all(other.plain_placing, lists),
    ]);
    let a_list = |time| time / lists.len() as f64;
    [[a, b, c, d], [e, f, g, h]].map(|[library, reading, plain, plain_placing]| Times {
        library: a_list(library),
        plain: a_list(plain),
        library_placing: a_list(library) - reading,
        plain_placing: a_list(plain_placing),
    })
}

/// The times of placing by a sheet and by its table.
fn by_rules_and_by_table(input: &Input, lists: &[Vec<u8>]) -> [Times; 2] {
    let sheet = Sheet::read(&input.sheet).expect("the sheet is read");
    let rules = Ways {
        library: &|list, out| teaselram::place_by_rules(black_box(&input.sheet), list, out),
        library_reading: &|| _ = black_box(teaselram::read_sheet(black_box(&input.sheet))),
        plain: &|list, out| Sheet::read(black_box(&input.sheet))?.place(list, out),
        plain_placing: &|list, out| sheet.place(list, out),
    };
    let read = Table::read(&input.table).expect("the table is read");
    let table = Ways {
        library: &|list, out| teaselram::place_by_table(black_box(&input.table), list, out),
        library_reading: &|| _ = black_box(teaselram::read_table(black_box(&input.table))),
        plain: &|list, out| Table::read(black_box(&input.table))?.place(list, out),
        plain_placing: &|list, out| read.place(list, out),
    };
    times([&rules, &table], lists)
}

/// One line of a table of ratios.
fn line(input: &Input, length: usize, library: [f64; 2], plain: [f64; 2]) {
    let columns = |at: usize| {
        let (library, plain) = (library[at], plain[at]);
        format!("{library:.0} | {plain:.0} | {:.2}", library / plain)
    };
    println!(
        "| {} | {length} | {} | {} |",
        input.name,
        columns(0),
        columns(1)
    );
}

fn head(title: &str, plain: &str) {
    println!("\n### {title}, ns a list\n");
    println!("| sheet | arguments | library | {plain} | ratio | library, not reading | {plain}, not reading | ratio |");
    println!("|---|---|---|---|---|---|---|---|");
}

/// Prints the three tables.
pub fn report(inputs: &[Input]) {
    let mut measured = Vec::new();
    for input in inputs {
        for length in LENGTHS {
            let times = by_rules_and_by_table(input, &input.lists(length));
            measured.push((input, length, times));
        }
    }
    head("Placing by the rules", "plain interpreter");
    for (input, length, [rules, _]) in &measured {
        line(input, *length, rules.of_library(), rules.of_plain());
    }
    head("Placing by a table", "plain walk");
    for (input, length, [_, table]) in &measured {
        line(input, *length, table.of_library(), table.of_plain());
    }
    head(
        "By a table beside the interpreter of the sheet",
        "plain interpreter",
    );
    for (input, length, [rules, table]) in &measured {
        line(input, *length, table.of_library(), rules.of_plain());
    }
}
