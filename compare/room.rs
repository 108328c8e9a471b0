//! The tables that this library works in, and what must be zero in them.

use crate::difference::Difference;
use crate::kelfhoam::{self, Node, Plan, Tables};
use crate::random::Random;

/// Tables and space for lists up to a size. Each load empties its whole tables, so short lists have small ones.
pub struct Room {
    pub events: usize,
    pub text: usize,
    pub tables: Tables,
    pub plan: Plan,
}

impl Room {
    pub fn sized(events: usize, text: usize) -> Room {
        Room { events, text, tables: Tables::sized(events, events, text, events, events), plan: Plan::sized(events, 2 * events + 1) }
    }

    pub fn full() -> Room {
        Room { events: usize::MAX, text: usize::MAX, tables: Tables::full(), plan: Plan::full() }
    }

    /// Tables that may be too small for a list, now the one and now the other.
    pub fn scanty(events: usize, text: usize, random: &mut Random) -> Room {
        let mut length = |most: usize| if random.one_in(3) { random.between(0, most) } else { most };
        let tables = Tables::sized(length(events), length(events), length(text), length(events / 2), length(events));
        Room { events, text, tables, plan: Plan::sized(events, 2 * events + 1) }
    }
}

/// Does every table hold as much as a document may have?
pub fn is_full(tables: &Tables) -> bool {
    tables.nodes.len() >= kelfhoam::NODES
        && tables.links.len() >= kelfhoam::LINKS
        && tables.text.len() >= kelfhoam::TEXT
        && tables.anchors.len() >= kelfhoam::ANCHORS
        && tables.waiting.len() >= kelfhoam::WAITING
}

/// Entries past these, and the tables that are only worked with, are zero.
pub fn all_zero(tables: &Tables, nodes: usize, links: usize, text: usize) -> Result<(), Difference> {
    let empty = Node::default();
    let zero = tables.nodes[nodes..].iter().all(|node| *node == empty)
        && tables.links[links..].iter().all(|link| *link == 0)
        && tables.text[text..].iter().all(|byte| *byte == 0)
        && tables.waiting.iter().all(|link| *link == 0)
        && tables.anchors.iter().all(|anchor| anchor.size == 0 && anchor.node == 0 && anchor.bytes == [0; 64]);
    if zero { Ok(()) } else { Err(format!("tables are not zero past {nodes} nodes, {links} links, {text} bytes")) }
}

pub fn plan_is_zero(plan: &Plan) -> Result<(), Difference> {
    let zero =
        plan.counting.iter().all(|c| c.references == 0 && c.anchor == 0 && c.serialized == 0) && plan.steps.iter().all(|step| step.what == 0 && step.node == 0);
    if zero { Ok(()) } else { Err("the counting and the step table are not zero".to_string()) }
}
