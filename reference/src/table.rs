//! 01, "Bytes of a sheet and of a table": the table and its rows.

use std::ops::Range;

use crate::bytes::{framed, Cursor, Head};
use crate::placement::run;
use crate::refusal::{ensure, Refusal};

pub(crate) const NO_PLACE: u8 = 0;
pub(crate) const REGISTERS: u8 = 1;
pub(crate) const STACK: u8 = 2;

/// The largest N.
pub(crate) const MOST_STATES: u8 = 200;

/// 01, "Bytes of a sheet and of a table": a table kind.
#[derive(Debug, Clone, PartialEq, Eq)]
pub struct TableKind {
    pub size: u8,
    pub alignment: u8,
}

/// 01, "Bytes of a sheet and of a table": a transition.
#[derive(Debug, Clone, PartialEq, Eq)]
pub struct Transition {
    pub form: u8,
    pub a: u8,
    pub b: u8,
    pub next: u8,
}

/// 01, "Bytes of a sheet and of a table": a table that was read; N is the number of rows.
#[derive(Debug, Clone, PartialEq, Eq)]
pub struct Table {
    pub head: Head,
    pub kinds: Vec<TableKind>,
    pub rows: Vec<Vec<Transition>>,
}

impl Transition {
    /// The set of registers that this transition gives.
    pub(crate) fn registers(&self) -> u32 {
        match self.form {
            REGISTERS => run(self.a, self.b),
            _ => 0,
        }
    }

    fn is_within(&self, head: &Head, states: u8) -> bool {
        let values_fit = match self.form {
            NO_PLACE => (self.a, self.b, self.next) == (0, 0, 0),
            REGISTERS => head.holds_run(self.a, self.b),
            STACK => self.a < head.modulus,
            _ => false,
        };
        values_fit && self.next < states
    }
}

impl Table {
    /// 01, "Bytes of a sheet and of a table": the bytes that read as this table.
    pub fn bytes(&self) -> Vec<u8> {
        let kinds = self
            .kinds
            .iter()
            .flat_map(|kind| [kind.size, kind.alignment]);
        let states = u8::try_from(self.rows.len()).expect("a table has at most 200 states");
        let rows = self
            .rows
            .iter()
            .flatten()
            .flat_map(|step| [step.form, step.a, step.b, step.next]);
        framed(&self.head, kinds.chain([states]).chain(rows))
    }
}

/// 01, "Bytes of a sheet and of a table": reading a table.
pub fn read_table(bytes: &[u8]) -> Result<Table, Refusal> {
    let mut cursor = Cursor::open(bytes)?;
    let head = cursor.head()?;
    let kinds = (0..head.kinds)
        .map(|_| read_kind(&mut cursor, &head))
        .collect::<Result<_, _>>()?;
    let states = cursor.field(Refusal::HEAD, |states| (1..=MOST_STATES).contains(&states))?;
    let rows = (0..states)
        .map(|_| read_row(&mut cursor, &head, states))
        .collect::<Result<_, _>>()?;
    cursor.close()?;
    Ok(Table { head, kinds, rows })
}

fn read_kind(cursor: &mut Cursor, head: &Head) -> Result<TableKind, Refusal> {
    Ok(TableKind {
        size: cursor.size()?,
        alignment: cursor.alignment(head)?,
    })
}

fn read_row(cursor: &mut Cursor, head: &Head, states: u8) -> Result<Vec<Transition>, Refusal> {
    (0..head.kinds)
        .map(|_| read_transition(cursor, head, states))
        .collect()
}

fn read_transition(cursor: &mut Cursor, head: &Head, states: u8) -> Result<Transition, Refusal> {
    let [form, a, b, next] = cursor.take()?;
    let transition = Transition { form, a, b, next };
    ensure(transition.is_within(head, states), Refusal::TRANSITION)?;
    Ok(transition)
}

/// 01, "Bytes of a sheet and of a table": where in the table's bytes the row of a state stands.
pub fn row(table: &[u8], state: u64) -> Result<Range<usize>, Refusal> {
    let Table { head, rows, .. } = read_table(table)?;
    ensure(state < rows.len() as u64, Refusal::NO_SUCH_STATE)?;
    let length = 4 * usize::from(head.kinds);
    // Nothing follows the last row, so the first one is found from the end.
    let first = table.len() - rows.len() * length;
    let start = first + state as usize * length;
    Ok(start..start + length)
}
