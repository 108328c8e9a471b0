//! Documents that no load gave: random graphs, made by the original's own calls on one side and as tables on the other.

use crate::kelfhoam;
use crate::original::Document;
use crate::random::Random;
use crate::walk::event_nodes;
use std::ffi::CString;

/// A node; links are numbers from 1, a mapping's in pairs. No tag stands for the default.
#[derive(Clone, Debug, Default)]
pub struct Node {
    pub kind: u8,
    pub style: u8,
    pub tag: Option<String>,
    pub value: String,
    pub links: Vec<u32>,
}

#[derive(Clone, Debug, Default)]
pub struct Graph {
    pub nodes: Vec<Node>,
    pub start_implicit: bool,
    pub end_implicit: bool,
}

impl Node {
    fn tag(&self) -> &str {
        match (&self.tag, self.kind) {
            (Some(tag), _) => tag,
            (None, 1) => "tag:yaml.org,2002:str",
            (None, 2) => "tag:yaml.org,2002:seq",
            (None, _) => "tag:yaml.org,2002:map",
        }
    }
}

impl Graph {
    /// The document, made by the original's own calls.
    pub fn made(&self) -> Document {
        let mut document = Document::new(self.start_implicit, self.end_implicit);
        for (i, node) in self.nodes.iter().enumerate() {
            let tag = node.tag.as_ref().map(|tag| CString::new(tag.as_str()).expect("no zero byte"));
            let number = document.add(node.kind, node.style, tag.as_deref(), node.value.as_bytes());
            assert_eq!(number as usize, i + 1, "the original takes the node");
        }
        for (i, node) in self.nodes.iter().enumerate().filter(|(_, node)| node.kind != 1) {
            document.append(node.kind, i as i32 + 1, &node.links);
        }
        document
    }

    /// The document as tables: texts and links lie in any order and with gaps.
    pub fn laid(&self, random: &mut Random) -> Laid {
        let mut laid = Laid { nodes: vec![kelfhoam::Node::default(); self.nodes.len()], links: Vec::new(), text: Vec::new() };
        let mut order: Vec<usize> = (0..self.nodes.len()).collect();
        for i in (1..order.len()).rev() {
            order.swap(i, random.below(i + 1));
        }
        for i in order {
            let node = &self.nodes[i];
            if random.one_in(5) {
                laid.text.push(random.next() as u8);
                laid.links.push(random.next() as u32);
            }
            let mut place = |text: &str| {
                let start = laid.text.len() as u32;
                laid.text.extend_from_slice(text.as_bytes());
                (start, text.len() as u16)
            };
            let value = place(&node.value);
            let tag = place(node.tag());
            let links = (laid.links.len() as u32, node.links.len() as u32);
            laid.links.extend_from_slice(&node.links);
            let (value, links) = if node.kind == 1 { (value, (0, 0)) } else { ((0, 0), links) };
            laid.nodes[i] = kelfhoam::Node {
                kind: node.kind,
                style: node.style,
                tag_length: tag.1,
                value_length: value.1,
                tag_start: tag.0,
                value_start: value.0,
                first_link: links.0,
                link_count: links.1,
                ..kelfhoam::Node::default()
            };
        }
        laid
    }

    /// At least as many bytes as the events of one dump have.
    pub fn size(&self) -> usize {
        let of_node = |node: &Node| 40 + node.tag().len() + node.value.len() + 20 * node.links.len();
        40 + self.nodes.iter().map(of_node).sum::<usize>()
    }

    pub fn has_unfit_tag(&self) -> bool {
        self.nodes.iter().any(|node| matches!(node.tag(), "" | "!"))
    }

    pub fn event_nodes(&self) -> Vec<u32> {
        let graph: Vec<_> = self.nodes.iter().map(|node| (node.kind != 1).then_some(&node.links[..])).collect();
        event_nodes(&graph)
    }

    pub fn shown(&self) -> String {
        let mut out = format!("{} nodes, implicit {} {}", self.nodes.len(), self.start_implicit as u8, self.end_implicit as u8);
        for (i, node) in self.nodes.iter().enumerate().take(100) {
            let kind = ["scalar", "sequence", "mapping"][node.kind as usize - 1];
            let links = &node.links[..node.links.len().min(100)];
            out += &format!("; {} {kind} {:?} {:?} {links:?}", i + 1, node.tag(), node.value);
        }
        out
    }
}

/// A document in tables.
pub struct Laid {
    pub nodes: Vec<kelfhoam::Node>,
    pub links: Vec<u32>,
    pub text: Vec<u8>,
}

/// A graph of any form.
pub fn random_graph(random: &mut Random) -> Graph {
    let n = match random.below(1000) {
        0..=699 => random.between(1, 8),
        700..=949 => random.between(1, 30),
        950..=994 => random.between(1, 200),
        995..=998 => random.between(200, 600),
        _ => random.between(600, 3000),
    };
    let mut graph = Graph { nodes: Vec::new(), start_implicit: random.one_in(2), end_implicit: random.one_in(2) };
    for _ in 0..n {
        let kind = random.between(1, 3) as u8;
        let style = random.below(if kind == 1 { 6 } else { 3 }) as u8;
        let tag = match random.below(8) {
            0 => Some(["tag:yaml.org,2002:str", "tag:yaml.org,2002:seq", "tag:yaml.org,2002:map"][random.below(3)].to_string()),
            1 => Some(format!("!{}", text(random, 1, 9))).filter(|tag| !tag.contains('\0')),
            _ => None,
        };
        let value = if kind == 1 { text(random, 0, 8) } else { String::new() };
        graph.nodes.push(Node { kind, style, tag, value, links: Vec::new() });
    }
    if random.one_in(500) {
        graph.nodes[random.below(n)].tag = Some(["", "!"][random.below(2)].to_string());
    }
    match random.below(5) {
        0 => link_wildly(random, &mut graph),
        1 => link_chain(random, &mut graph),
        2 => link_tree(random, &mut graph),
        _ => {
            link_wildly(random, &mut graph);
            link_root_to_all(random, &mut graph);
        }
    }
    graph
}

/// Letters of one to four bytes, and the zero byte.
fn text(random: &mut Random, least: usize, most: usize) -> String {
    let length = random.between(least, most);
    (0..length).map(|_| *random.pick(&['a', 'b', ' ', '\n', '\0', '\\', '!', 'é', '€', '🧵', '\u{7f}'])).collect()
}

/// Links from anywhere to anywhere: nodes shared at every depth, loops, nodes that no path leads to, pairs whose key and value are one node.
fn link_wildly(random: &mut Random, graph: &mut Graph) {
    let n = graph.nodes.len();
    for node in graph.nodes.iter_mut().filter(|node| node.kind != 1) {
        let mut count = random.below(5);
        while count > 0 {
            count -= 1;
            let link = random.between(1, n) as u32;
            node.links.push(link);
            if node.kind == 3 {
                node.links.push(if random.one_in(4) { link } else { random.between(1, n) as u32 });
            }
        }
    }
}

/// The root gets each node twice, in any order, so that every node has an anchor.
fn link_root_to_all(random: &mut Random, graph: &mut Graph) {
    let n = graph.nodes.len() as u32;
    let mut links: Vec<u32> = (1..=n).chain(1..=n).collect();
    for i in (1..links.len()).rev() {
        links.swap(i, random.below(i + 1));
    }
    let root = &mut graph.nodes[0];
    if root.kind == 1 {
        (root.kind, root.style) = (2, 0);
        root.value.clear();
    }
    root.links = links;
}

/// Each node but some hangs below one node, whose number may be greater.
fn link_tree(random: &mut Random, graph: &mut Graph) {
    let n = graph.nodes.len();
    let mut order: Vec<usize> = (1..n).collect();
    for i in (1..order.len()).rev() {
        order.swap(i, random.below(i + 1));
    }
    let mut collections = vec![0];
    for i in order {
        if random.one_in(12) {
            continue;
        }
        let parent = *random.pick(&collections);
        if graph.nodes[parent].kind != 1 {
            graph.nodes[parent].links.push(i as u32 + 1);
        }
        if graph.nodes[i].kind != 1 {
            collections.push(i);
        }
    }
    even_out(graph);
}

/// One chain of collections, now and then deeper than this library walks.
fn link_chain(random: &mut Random, graph: &mut Graph) {
    let n = if random.one_in(40) { random.between(250, 262) } else { graph.nodes.len() };
    graph.nodes.resize(n, Node { kind: 2, ..Node::default() });
    for (i, node) in graph.nodes.iter_mut().enumerate() {
        if i + 1 < n {
            if node.kind == 1 {
                (node.kind, node.style) = (2, 0);
                node.value.clear();
            }
            node.links = vec![i as u32 + 2];
        }
    }
    even_out(graph);
}

/// A mapping with a key too many loses it.
fn even_out(graph: &mut Graph) {
    for node in graph.nodes.iter_mut().filter(|node| node.kind == 3) {
        if node.links.len() == 1 {
            (node.kind, node.style) = (2, node.style);
        } else {
            let even = node.links.len() / 2 * 2;
            node.links.truncate(even);
        }
    }
}
