//! Which question about space (25, 26, 28, 29, 30 of docs/REFUSALS.md) a document meets first in given tables, worked out from its events alone.

use crate::kelfhoam::{self, Tables};

/// Looks at the events of the document that begins at `start`, up to and with the one at `last`. Gives the first event that has no space, and the number.
pub fn first_without_space(input: &[u8], start: u64, last: u64, tables: &Tables) -> Option<(u64, u32)> {
    let space = |length: usize, limit: usize| length.min(limit);
    let nodes_space = space(tables.nodes.len(), kelfhoam::NODES);
    let text_space = space(tables.text.len(), kelfhoam::TEXT);
    let anchors_space = space(tables.anchors.len(), kelfhoam::ANCHORS);
    let links_space = space(tables.links.len(), kelfhoam::LINKS);
    let waiting_space = space(tables.waiting.len(), kelfhoam::WAITING);
    let (mut nodes, mut text, mut anchors, mut waiting, mut placed) = (0, 0, 0, 0, 0);
    // the children so far of each open collection
    let mut open: Vec<usize> = Vec::new();
    for (place, event) in packed::events(&input[start as usize..]) {
        let place = start + place as u64;
        if place > last {
            break;
        }
        let is_node = matches!(event.kind, packed::SCALAR | packed::SEQUENCE_START | packed::MAPPING_START);
        let is_start = is_node && event.kind != packed::SCALAR;
        if is_node {
            let tag = if matches!(event.tag, b"" | b"!") { "tag:yaml.org,2002:xxx".len() } else { event.tag.len() };
            if nodes == nodes_space {
                return Some((place, 25));
            }
            nodes += 1;
            text += tag + event.value.len();
            if text > text_space {
                return Some((place, 26));
            }
            if !event.anchor.is_empty() {
                if anchors == anchors_space {
                    return Some((place, 28));
                }
                anchors += 1;
            }
        }
        if (is_node || event.kind == packed::ALIAS)
            && let Some(children) = open.last_mut()
        {
            if waiting >= waiting_space || waiting + placed >= links_space {
                return Some((place, 29));
            }
            waiting += 1;
            *children += 1;
        }
        if is_start {
            if open.len() == 256 {
                return Some((place, 30));
            }
            open.push(0);
        }
        if matches!(event.kind, packed::SEQUENCE_END | packed::MAPPING_END) {
            let children = open.pop().unwrap_or(0);
            waiting -= children;
            placed += children;
        }
    }
    None
}
