//! One call of the library held against the second program's: the answer, and the whole of the lent memory. Each function
//! answers what the second program does, which is then also what the library answered.

use reference::{Placed, Refusal, Sheet, SheetKind, Table, TableKind, Verdict};

use crate::{kinds, refused, Lent};

/// What a call without a list answers, in the second program's terms, by which no position is position 0.
fn same<T>(answer: Result<T, teaselram::Refusal>) -> Result<T, Refusal> {
    answer.map_err(|refusal| {
        assert_eq!(refusal.position, None, "{refusal:?}");
        refused(refusal.number, 0, refusal.fault)
    })
}

/// What placing answers, in the same terms: 9 and 10 have a position, and nothing else has.
fn same_placed(
    answer: Result<teaselram::Placed, teaselram::Refusal>,
) -> Result<teaselram::Placed, Refusal> {
    answer.map_err(|refusal| {
        let positioned = matches!(refusal.number, 9 | 10);
        assert_eq!(refusal.position.is_some(), positioned, "{refusal:?}");
        let position = refusal.position.unwrap_or(0);
        refused(refusal.number, position, refusal.fault)
    })
}

/// What the library should answer: `part` of the second program's success, or its refusal.
fn wanted<T, U>(expected: &Result<T, Refusal>, part: impl FnOnce(&T) -> U) -> Result<U, Refusal> {
    expected.as_ref().map(part).map_err(|refusal| *refusal)
}

fn head(head: &reference::Head, states: usize) -> teaselram::Head {
    teaselram::Head {
        registers: head.registers,
        width: head.width,
        modulus: head.modulus,
        kinds: head.kinds,
        states: states as u16,
    }
}

/// Reading a sheet.
pub fn read_sheet(sheet: &[u8]) -> Result<Sheet, Refusal> {
    let answer = same(teaselram::read_sheet(sheet));
    let expected = reference::read_sheet(sheet);
    let wanted = wanted(&expected, |sheet| head(&sheet.head, 0));
    assert_eq!(answer, wanted, "{sheet:02X?}");
    expected
}

/// Reading a table.
pub fn read_table(table: &[u8]) -> Result<Table, Refusal> {
    let answer = same(teaselram::read_table(table));
    let expected = reference::read_table(table);
    let wanted = wanted(&expected, |table| head(&table.head, table.rows.len()));
    assert_eq!(answer, wanted, "{table:02X?}");
    expected
}

/// Asking for a kind of a sheet, whose starts must be the sheet's own bytes and no copy.
pub fn sheet_kind(sheet: &[u8], kind: u64) -> Result<SheetKind, Refusal> {
    let answer = same(teaselram::sheet_kind(sheet, kind));
    let expected = kinds::of_sheet(sheet, kind);
    let wanted = wanted(&expected, |(kind, first_start)| teaselram::SheetKind {
        size: kind.size,
        alignment: kind.alignment,
        flags: kind.flags,
        starts: &sheet[*first_start..first_start + kind.starts.len()],
    });
    assert_eq!(answer, wanted, "kind {kind} of {sheet:02X?}");
    assert_eq!(
        answer.map(|kind| kind.starts.as_ptr_range()),
        wanted.map(|kind| kind.starts.as_ptr_range()),
        "kind {kind} of {sheet:02X?}"
    );
    expected.map(|(kind, _)| kind)
}

/// Asking for a kind of a table.
pub fn table_kind(table: &[u8], kind: u64) -> Result<TableKind, Refusal> {
    let answer = same(teaselram::table_kind(table, kind));
    let expected = kinds::of_table(table, kind);
    let wanted = wanted(&expected, |kind| teaselram::TableKind {
        size: kind.size,
        alignment: kind.alignment,
    });
    assert_eq!(answer, wanted, "kind {kind} of {table:02X?}");
    expected
}

/// Asking for a row, which must be the table's own bytes and no copy.
pub fn row(table: &[u8], state: u64) -> Result<&[u8], Refusal> {
    let answer = same(teaselram::row(table, state));
    let expected = reference::row(table, state).map(|range| &table[range]);
    assert_eq!(
        answer.map(<[u8]>::as_ptr_range),
        expected.map(<[u8]>::as_ptr_range),
        "state {state} of {table:02X?}"
    );
    expected
}

/// Placing by the rules.
pub fn place_by_rules(sheet: &[u8], kinds: &[u8], room: usize) -> Result<Placed, Refusal> {
    let mut lent = Lent::new(room);
    let answer = same_placed(teaselram::place_by_rules(sheet, kinds, lent.out()));
    let expected = reference::place_by_rules(sheet, kinds, room);
    let wanted = wanted(&expected, placed);
    assert_eq!(answer, wanted, "{kinds:?} by {sheet:02X?}");
    lent.assert_holds(records(&expected));
    expected
}

/// Placing by a table.
pub fn place_by_table(table: &[u8], kinds: &[u8], room: usize) -> Result<Placed, Refusal> {
    let mut lent = Lent::new(room);
    let answer = same_placed(teaselram::place_by_table(table, kinds, lent.out()));
    let expected = reference::place_by_table(table, kinds, room);
    let wanted = wanted(&expected, placed);
    assert_eq!(answer, wanted, "{kinds:?} by {table:02X?}");
    lent.assert_holds(records(&expected));
    expected
}

fn placed(placed: &Placed) -> teaselram::Placed {
    teaselram::Placed {
        count: placed.count,
        p: placed.p,
    }
}

fn records(placed: &Result<Placed, Refusal>) -> &[u8] {
    placed.as_ref().map_or(&[], |placed| &placed.records)
}

/// Building a table.
pub fn build(sheet: &[u8], room: usize) -> Result<Vec<u8>, Refusal> {
    let mut lent = Lent::new(room);
    let answer = same(teaselram::build(sheet, lent.out()));
    let expected = reference::build(sheet, room);
    let wanted = wanted(&expected, |table| built(table));
    assert_eq!(answer, wanted, "{sheet:02X?}");
    lent.assert_holds(expected.as_deref().unwrap_or(&[]));
    expected
}

fn built(table: &[u8]) -> teaselram::Built {
    let rows = reference::read_table(table).expect("a built table").rows;
    teaselram::Built {
        states: rows.len() as u16,
        length: table.len(),
    }
}

/// Judging a table.
pub fn judge(table: &[u8], room: usize) -> Result<Verdict, Refusal> {
    let mut lent = Lent::new(room);
    let answer = same(teaselram::judge(table, lent.out()));
    let expected = reference::judge(table, room);
    let wanted = wanted(&expected, verdict);
    assert_eq!(answer, wanted, "{table:02X?}");
    lent.assert_holds(match &expected {
        Ok(Verdict::Fault { list, .. }) => list,
        _ => &[],
    });
    expected
}

fn verdict(verdict: &Verdict) -> teaselram::Verdict {
    match verdict {
        Verdict::Clean => teaselram::Verdict::Clean,
        Verdict::Fault { fault, list } => teaselram::Verdict::Fault {
            fault: *fault,
            length: list.len(),
        },
    }
}
