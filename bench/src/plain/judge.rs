//! The search for a faulty list that watches one register at a time.

use super::table::Table;
use super::{refusal, run, MOST_STATES, REGISTERS};
use crate::{Refusal, Verdict};

/// A state, with or without the watched register given.
const MOST_NODES: usize = 2 * MOST_STATES;

/// The nodes in the order of meeting, each with the entry and the kind that it was met by.
struct Explored {
    entries: [Entry; MOST_NODES],
    count: usize,
    met: [bool; MOST_NODES],
}

#[derive(Clone, Copy, Default)]
struct Entry {
    state: u8,
    given: bool,
    parent: u16,
    kind: u8,
    /// How many kinds lead here.
    depth: u16,
}

impl Explored {
    /// Forgets all but the start.
    fn begin(&mut self) {
        self.count = 0;
        self.met = [false; MOST_NODES];
        self.meet(Entry::default());
    }

    fn meet(&mut self, entry: Entry) {
        let node = 2 * usize::from(entry.state) + usize::from(entry.given);
        if !self.met[node] {
            self.met[node] = true;
            self.entries[self.count] = entry;
            self.count += 1;
        }
    }

    /// Writes the list that leads through an entry by one more kind, and answers its length.
    fn list(&self, entry: usize, last: u8, list: &mut [u8; MOST_NODES]) -> usize {
        let length = usize::from(self.entries[entry].depth) + 1;
        let (mut entry, mut kind) = (entry, last);
        for at in (0..length).rev() {
            list[at] = kind;
            let Entry {
                parent, kind: by, ..
            } = self.entries[entry];
            (entry, kind) = (usize::from(parent), by);
        }
        length
    }
}

/// A faulty list that was found.
struct Found {
    fault: u8,
    length: usize,
    list: [u8; MOST_NODES],
}

/// The first faulty list of the walk that watches the registers of `watched`, one or none.
fn hunt(table: &Table, watched: u32, explored: &mut Explored) -> Option<Found> {
    explored.begin();
    let mut at = 0;
    while at < explored.count {
        let Entry {
            state,
            given,
            depth,
            ..
        } = explored.entries[at];
        for kind in 0..table.head.kinds {
            let step @ [form, a, b, next] = table.transition(state, kind);
            let fault = table.fault(kind, step, if given { watched } else { 0 });
            if fault != 0 {
                let mut list = [0; MOST_NODES];
                let length = explored.list(at, kind, &mut list);
                return Some(Found {
                    fault,
                    length,
                    list,
                });
            }
            explored.meet(Entry {
                state: next,
                given: given || form == REGISTERS && run(a, b) & watched != 0,
                parent: at as u16,
                kind,
                depth: depth + 1,
            });
        }
        at += 1;
    }
    None
}

/// The verdict on a table, with the list in the first bytes of `out`.
#[inline(never)]
pub fn judge(table: &Table, out: &mut [u8]) -> Result<Verdict, Refusal> {
    if out.len() < 2 * table.states {
        return Err(refusal(12));
    }
    let none_and_each = (0..=table.head.registers).map(|register| 1u32 << register >> 1);
    let mut explored = Explored {
        entries: [Entry::default(); MOST_NODES],
        count: 0,
        met: [false; MOST_NODES],
    };
    let found = none_and_each.filter_map(|watched| hunt(table, watched, &mut explored));
    // Of one list found twice, only the walk that watches a register given twice knows of fault 2, which comes before 3.
    let Some(first) = found.min_by_key(|found| (found.length, found.list, found.fault)) else {
        return Ok(Verdict::Clean);
    };
    out[..first.length].copy_from_slice(&first.list[..first.length]);
    Ok(Verdict::Fault {
        fault: first.fault,
        length: first.length,
    })
}
