//! Compares a loaded document: node by node, and how it lies in the tables.

use crate::difference::{Difference, differ, same};
use crate::kelfhoam::{Loaded, Tables};
use crate::original::Document;
use crate::room::all_zero;

/// A loaded document, node by node, and how it lies in the tables.
pub fn compare_document(input: &[u8], tables: &Tables, told: &Loaded, document: &Document) -> Result<(), Difference> {
    same("number of nodes", told.nodes, document.nodes().len() as u64)?;
    let (mut text, mut links) = (0, 0);
    let mut collections = Vec::new();
    for (i, theirs) in document.nodes().enumerate() {
        let ours = &tables.nodes[i];
        let number = i + 1;
        if (ours.kind, ours.style) != (theirs.kind, theirs.style) || (ours.start, ours.end) != (theirs.start, theirs.end) {
            return differ(&format!("node {number}"), ours, theirs);
        }
        let is_collection = ours.kind != 1;
        let lies = ours.filler == 0
            && ours.tag_start as usize == text
            && ours.value_start as usize == if is_collection { 0 } else { text + ours.tag_length as usize }
            && (is_collection || (ours.first_link, ours.link_count) == (0, 0));
        if !lies {
            return Err(format!("node {number} does not lie as it should, text so far {text}: {ours:?}"));
        }
        text += ours.tag_length as usize + ours.value_length as usize;
        same(&format!("tag of node {number}"), tables.tag(ours), theirs.tag)?;
        same(&format!("value of node {number}"), tables.value(ours), theirs.value)?;
        if is_collection {
            let ours = tables.links_of(ours);
            if ours.len() != theirs.links.len() || ours.iter().zip(theirs.links).any(|(&a, &b)| a as i32 != b) {
                return differ(&format!("links of node {number}"), ours, theirs.links);
            }
            links += ours.len();
            collections.push((theirs.end.index, i));
        }
    }
    // links are placed when their collection ends
    collections.sort_unstable();
    let mut placed = 0;
    for (_, i) in collections {
        let node = &tables.nodes[i];
        if node.first_link != placed {
            return Err(format!("the links of node {} lie at {}, not at {placed}", i + 1, node.first_link));
        }
        placed += node.link_count;
    }
    let (start, end) = (document.start(), document.end());
    let anchored =
        packed::events(&input[start.index as usize..end.index as usize]).filter(|(_, event)| event.kind != packed::ALIAS && !event.anchor.is_empty()).count();
    let expected = Loaded {
        nodes: document.nodes().len() as u64,
        links: links as u64,
        text: text as u64,
        anchors: anchored as u64,
        start_implicit: document.start_implicit() as u64,
        end_implicit: document.end_implicit() as u64,
        start,
        end,
        ..Loaded::default()
    };
    same("what a load tells", *told, expected)?;
    all_zero(tables, told.nodes as usize, links, text)
}
