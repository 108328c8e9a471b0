//! Which node each event of a dumped document belongs to.

/// The links of each node, none for a scalar.
pub type Graph<'a> = [Option<&'a [u32]>];

/// The node of each event of the document's dump, 0 for the document's start and end: a node met again is an alias and is not walked again.
pub fn event_nodes(graph: &Graph<'_>) -> Vec<u32> {
    let mut nodes = vec![0];
    let mut met = vec![false; graph.len()];
    if !graph.is_empty() {
        walk(graph, 1, &mut met, &mut nodes);
    }
    nodes.push(0);
    nodes
}

fn walk(graph: &Graph<'_>, node: u32, met: &mut [bool], nodes: &mut Vec<u32>) {
    nodes.push(node);
    let at = node as usize - 1;
    if std::mem::replace(&mut met[at], true) {
        return;
    }
    if let Some(links) = graph[at] {
        for &child in links {
            walk(graph, child, met, nodes);
        }
        nodes.push(node);
    }
}
