//! Kelfhoam for Rust: safe calls over the static library that `rt lib` makes in crates/kelfhoam_c.
//!
//! `kelfhoam.h` beside this file says what each call does; the declarations here are the same. A slice is a pointer and a length, and the library
//! trusts nothing of what the entries hold, so these wrappers ask nothing of their caller.

/// Full-sized tables have so many entries.
pub const NODES: usize = 4096;
pub const LINKS: usize = 16384;
pub const TEXT: usize = 65536;
pub const ANCHORS: usize = 4096;
pub const WAITING: usize = 16384;
pub const COUNTS: usize = 4096;
pub const STEPS: usize = 20481;

/// A place in the input: bytes, events and columns before it.
#[repr(C)]
#[derive(Clone, Copy, Default, PartialEq, Eq, Debug)]
pub struct Mark {
    pub index: u64,
    pub line: u64,
    pub column: u64,
}

/// A node: kind 1 scalar, 2 sequence, 3 mapping, and where its tag, value and links stand in their tables.
#[repr(C)]
#[derive(Clone, Copy, Default, PartialEq, Eq, Debug)]
pub struct Node {
    pub kind: u8,
    pub style: u8,
    pub tag_length: u16,
    pub value_length: u16,
    pub filler: u16,
    pub tag_start: u32,
    pub value_start: u32,
    pub first_link: u32,
    pub link_count: u32,
    pub start: Mark,
    pub end: Mark,
}

#[repr(C)]
#[derive(Clone, Copy)]
pub struct Anchor {
    pub bytes: [u8; 64],
    pub size: u32,
    pub node: u32,
}

#[repr(C)]
#[derive(Clone, Copy, Default)]
pub struct Counted {
    pub references: u32,
    pub anchor: u32,
    pub serialized: u32,
}

#[repr(C)]
#[derive(Clone, Copy, Default)]
pub struct Step {
    pub what: u32,
    pub node: u32,
}

/// What a load tells; fields that do not belong to the answer are 0.
#[repr(C)]
#[derive(Clone, Copy, Default, PartialEq, Eq, Debug)]
pub struct Loaded {
    pub nodes: u64,
    pub links: u64,
    pub text: u64,
    pub anchors: u64,
    pub start_implicit: u64,
    pub end_implicit: u64,
    pub start: Mark,
    pub end: Mark,
    pub at: Mark,
    pub first: Mark,
    pub fault: u64,
    pub place: u64,
}

/// What a call of a writer tells: refusal 0 where it was accepted.
#[repr(C)]
#[derive(Clone, Copy, Default, PartialEq, Eq, Debug)]
pub struct Called {
    pub refusal: u64,
    pub events: u64,
    pub node: u64,
    pub size: u64,
    pub space: u64,
}

/// What redumping tells.
#[repr(C)]
#[derive(Clone, Copy, Default, PartialEq, Eq, Debug)]
pub struct Redumped {
    pub documents: u64,
    pub nodes: u64,
    pub links: u64,
    pub events: u64,
    pub bytes: u64,
    pub load: Loaded,
    pub write: Called,
}

mod raw {
    use super::{Anchor, Called, Counted, Loaded, Node, Redumped, Step};

    #[link(name = "kelfhoam_c", kind = "static")]
    unsafe extern "C" {
        pub fn kelfhoam_load(
            input: *const u8, input_length: usize, skip: u64,
            nodes: *mut Node, nodes_length: usize, links: *mut u32, links_length: usize,
            text: *mut u8, text_length: usize, anchors: *mut Anchor, anchors_length: usize,
            waiting: *mut u32, waiting_length: usize, told: *mut Loaded,
        ) -> u32;
        pub fn kelfhoam_write(
            calls: *const u8, calls_length: usize,
            nodes: *const Node, nodes_length: usize, links: *const u32, links_length: usize,
            text: *const u8, text_length: usize, n: u64, start_implicit: u8, end_implicit: u8,
            counting: *mut Counted, counting_length: usize, steps: *mut Step, steps_length: usize,
            out: *mut u8, out_length: usize, told: *mut Called, told_length: usize,
        ) -> u64;
        pub fn kelfhoam_redump(
            input: *const u8, input_length: usize,
            nodes: *mut Node, nodes_length: usize, links: *mut u32, links_length: usize,
            text: *mut u8, text_length: usize, anchors: *mut Anchor, anchors_length: usize,
            waiting: *mut u32, waiting_length: usize,
            counting: *mut Counted, counting_length: usize, steps: *mut Step, steps_length: usize,
            out: *mut u8, out_length: usize, told: *mut Redumped,
        ) -> u32;
    }
}

/// The tables that a document is loaded into.
pub struct Tables {
    pub nodes: Vec<Node>,
    pub links: Vec<u32>,
    pub text: Vec<u8>,
    pub anchors: Vec<Anchor>,
    pub waiting: Vec<u32>,
}

impl Tables {
    /// Tables of these lengths.
    pub fn sized(nodes: usize, links: usize, text: usize, anchors: usize, waiting: usize) -> Tables {
        let bare = Anchor { bytes: [0; 64], size: 0, node: 0 };
        Tables {
            nodes: vec![Node::default(); nodes],
            links: vec![0; links],
            text: vec![0; text],
            anchors: vec![bare; anchors],
            waiting: vec![0; waiting],
        }
    }

    /// Tables that hold every document within the limits.
    pub fn full() -> Tables {
        Tables::sized(NODES, LINKS, TEXT, ANCHORS, WAITING)
    }

    /// The bytes of a node's tag and value, and its links. Nodes that a load gave always have them.
    pub fn tag(&self, node: &Node) -> &[u8] {
        &self.text[node.tag_start as usize..][..node.tag_length as usize]
    }

    pub fn value(&self, node: &Node) -> &[u8] {
        &self.text[node.value_start as usize..][..node.value_length as usize]
    }

    pub fn links_of(&self, node: &Node) -> &[u32] {
        &self.links[node.first_link as usize..][..node.link_count as usize]
    }
}

/// The tables that writing works with; they are zero after each call.
pub struct Plan {
    pub counting: Vec<Counted>,
    pub steps: Vec<Step>,
}

impl Plan {
    pub fn sized(counts: usize, steps: usize) -> Plan {
        Plan { counting: vec![Counted::default(); counts], steps: vec![Step::default(); steps] }
    }

    pub fn full() -> Plan {
        Plan::sized(COUNTS, STEPS)
    }
}

/// What came of a load.
#[derive(Clone, Copy, PartialEq, Eq, Debug)]
pub enum Answer {
    /// the document is in the tables
    Loaded,
    /// the stream has ended before it
    Ended,
    /// the number of the refusal; the tables are zero
    Refused(u32),
}

/// Loads the document after `skip` documents from packed events.
pub fn load(input: &[u8], skip: u64, tables: &mut Tables) -> (Answer, Loaded) {
    let mut told = Loaded::default();
    let number = unsafe {
        raw::kelfhoam_load(
            input.as_ptr(), input.len(), skip,
            tables.nodes.as_mut_ptr(), tables.nodes.len(), tables.links.as_mut_ptr(), tables.links.len(),
            tables.text.as_mut_ptr(), tables.text.len(), tables.anchors.as_mut_ptr(), tables.anchors.len(),
            tables.waiting.as_mut_ptr(), tables.waiting.len(), &mut told,
        )
    };
    let answer = match number {
        0 => Answer::Loaded,
        1 => Answer::Ended,
        n => Answer::Refused(n),
    };
    (answer, told)
}

/// The document that stands on the first `n` nodes of some tables.
#[derive(Clone, Copy)]
pub struct Document<'a> {
    pub nodes: &'a [Node],
    pub links: &'a [u32],
    pub text: &'a [u8],
    pub n: u64,
    pub start_implicit: bool,
    pub end_implicit: bool,
}

/// Makes a writer over `out` and calls it, one call a byte: `o` open, `d` dump the document, `e` dump an empty one, `c` close.
/// `told` gets what each call told. Gives the part of `out` that holds packed events.
pub fn write<'o>(calls: &[u8], document: Document<'_>, plan: &mut Plan, out: &'o mut [u8], told: &mut [Called]) -> &'o [u8] {
    let d = document;
    let used = unsafe {
        raw::kelfhoam_write(
            calls.as_ptr(), calls.len(),
            d.nodes.as_ptr(), d.nodes.len(), d.links.as_ptr(), d.links.len(),
            d.text.as_ptr(), d.text.len(), d.n, d.start_implicit as u8, d.end_implicit as u8,
            plan.counting.as_mut_ptr(), plan.counting.len(), plan.steps.as_mut_ptr(), plan.steps.len(),
            out.as_mut_ptr(), out.len(), told.as_mut_ptr(), told.len(),
        )
    };
    &out[..used as usize]
}

/// Loads every document of the input and writes it again. The error is the number of the refusal; `Redumped` tells the rest.
pub fn redump(input: &[u8], tables: &mut Tables, plan: &mut Plan, out: &mut [u8]) -> (Result<(), u32>, Redumped) {
    let mut told = Redumped::default();
    let number = unsafe {
        raw::kelfhoam_redump(
            input.as_ptr(), input.len(),
            tables.nodes.as_mut_ptr(), tables.nodes.len(), tables.links.as_mut_ptr(), tables.links.len(),
            tables.text.as_mut_ptr(), tables.text.len(), tables.anchors.as_mut_ptr(), tables.anchors.len(),
            tables.waiting.as_mut_ptr(), tables.waiting.len(),
            plan.counting.as_mut_ptr(), plan.counting.len(), plan.steps.as_mut_ptr(), plan.steps.len(),
            out.as_mut_ptr(), out.len(), &mut told,
        )
    };
    (if number == 0 { Ok(()) } else { Err(number) }, told)
}
