//! 01, "Placing by a table": judging, that is hunting for a faulty list.

use std::collections::{hash_map::Entry, HashMap, VecDeque};
use std::iter::successors;

use crate::refusal::{ensure, Refusal};
use crate::table::{read_table, Table};
use crate::walk::fault;

/// 01, "Answer numbers": what the judge answers; the list is the shortest, earliest in kind order.
#[derive(Debug, Clone, PartialEq, Eq)]
pub enum Verdict {
    Clean,
    Fault { fault: u8, list: Vec<u8> },
}

/// All that the faults of later steps depend on: the state and the registers given so far.
#[derive(Clone, Copy, Default, PartialEq, Eq, Hash)]
struct Node {
    state: u8,
    given: u32,
}

/// From which node and by which kind each node was first met; the first node by none.
type Met = HashMap<Node, Option<(Node, u8)>>;

/// The list by which `node` was first met, with one more kind after it.
fn list_through(met: &Met, node: Node, last: u8) -> Vec<u8> {
    let mut list: Vec<u8> = successors(Some((node, last)), |(node, _)| met[node])
        .map(|(_, kind)| kind)
        .collect();
    list.reverse();
    list
}

/// Nodes leave the queue in the order of their lists, shorter first and then by kind order, so the
/// first fault met ends the list that is wanted.
fn hunt(table: &Table) -> Verdict {
    let mut met = Met::from([(Node::default(), None)]);
    let mut queue = VecDeque::from([Node::default()]);
    while let Some(node) = queue.pop_front() {
        let row = &table.rows[usize::from(node.state)];
        for (number, (transition, kind)) in (0..).zip(row.iter().zip(&table.kinds)) {
            if let Some(fault) = fault(&table.head, kind, transition, node.given) {
                return Verdict::Fault {
                    fault,
                    list: list_through(&met, node, number),
                };
            }
            let next = Node {
                state: transition.next,
                given: node.given | transition.registers(),
            };
            if let Entry::Vacant(entry) = met.entry(next) {
                entry.insert(Some((node, number)));
                queue.push_back(next);
            }
        }
    }
    Verdict::Clean
}

/// 01, "Answer numbers": judges a table, where `room` bytes hold twice as many kinds as it has states.
pub fn judge(table: &[u8], room: usize) -> Result<Verdict, Refusal> {
    let table = read_table(table)?;
    ensure(room >= 2 * table.rows.len(), Refusal::SHORT_OUTPUT)?;
    Ok(hunt(&table))
}
