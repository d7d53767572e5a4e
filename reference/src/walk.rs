//! 01, "Placing by a table", with fault 3 as 02, W-202, replaces it.

use crate::bytes::Head;
use crate::placement::{admit, records, Placed, Placement};
use crate::refusal::Refusal;
use crate::table::{read_table, Table, TableKind, Transition, NO_PLACE, REGISTERS, STACK};

/// The first fault that applies to a step, where `given` are the registers of earlier arguments.
/// 02, W-202: fault 3 is given for any register count other than the size over w, rounded up.
pub(crate) fn fault(
    head: &Head,
    kind: &TableKind,
    transition: &Transition,
    given: u32,
) -> Option<u8> {
    let Transition { form, a, b, .. } = *transition;
    let applies = [
        form == NO_PLACE,
        transition.registers() & given != 0,
        form == REGISTERS && b != head.needed(kind.size) || form == STACK && b != kind.size,
        form == STACK && a % kind.alignment != 0,
    ];
    (1..)
        .zip(applies)
        .find_map(|(fault, applies)| applies.then_some(fault))
}

/// What a walk by a table remembers from one argument to the next.
#[derive(Default)]
struct Walk {
    state: u8,
    given: u32,
    p: u32,
}

impl Walk {
    fn step(&mut self, table: &Table, kind: usize) -> Result<Placement, u8> {
        let transition = &table.rows[usize::from(self.state)][kind];
        if let Some(fault) = fault(&table.head, &table.kinds[kind], transition, self.given) {
            return Err(fault);
        }
        self.state = transition.next;
        self.given |= transition.registers();
        Ok(match transition.form {
            REGISTERS => Placement::Registers {
                first: transition.a,
                count: transition.b,
            },
            _ => self.push(&table.head, transition),
        })
    }

    fn push(&mut self, head: &Head, transition: &Transition) -> Placement {
        let residue = u32::from(transition.a);
        let beyond = self.p.saturating_sub(residue);
        let offset = residue + beyond.next_multiple_of(u32::from(head.modulus));
        self.p = offset + u32::from(transition.b);
        Placement::Stack {
            offset,
            count: transition.b,
        }
    }
}

/// 01, "Placing by a table": places a list of kinds by a table into `room` bytes.
pub fn place_by_table(table: &[u8], kinds: &[u8], room: usize) -> Result<Placed, Refusal> {
    let table = read_table(table)?;
    admit(kinds, table.head.kinds, room)?;
    let mut walk = Walk::default();
    let records = records(kinds, |kind| walk.step(&table, kind))?;
    Ok(Placed {
        records,
        count: kinds.len(),
        p: walk.p,
    })
}
