//! Random well-formed streams, and damaged copies of them.

use crate::random::Random;
use packed::Event;

/// An event that owns its texts.
#[derive(Clone, Default)]
pub struct Owned {
    pub kind: u8,
    pub style: u8,
    pub flags: u8,
    pub anchor: Vec<u8>,
    pub tag: Vec<u8>,
    pub value: Vec<u8>,
}

impl Owned {
    pub fn bare(kind: u8) -> Owned {
        Owned { kind, ..Owned::default() }
    }

    pub fn alias(anchor: &[u8]) -> Owned {
        Owned { kind: packed::ALIAS, anchor: anchor.to_vec(), ..Owned::default() }
    }

    pub fn scalar(value: &[u8]) -> Owned {
        Owned { kind: packed::SCALAR, style: 1, flags: 1, value: value.to_vec(), ..Owned::default() }
    }

    pub fn anchored(mut self, anchor: &[u8]) -> Owned {
        self.anchor = anchor.to_vec();
        self
    }

    pub fn tagged(mut self, tag: &[u8]) -> Owned {
        self.tag = tag.to_vec();
        self
    }
}

pub fn pack(events: &[Owned]) -> Vec<u8> {
    let mut out = Vec::new();
    for e in events {
        Event { kind: e.kind, style: e.style, flags: e.flags, anchor: &e.anchor, tag: &e.tag, value: &e.value }.push(&mut out);
    }
    out
}

/// How large a stream and its texts become.
#[derive(Clone, Copy)]
pub struct Size {
    pub documents: usize,
    pub nodes: usize,
    pub depth: usize,
    pub long_texts: bool,
}

impl Size {
    /// Mostly small, some of a few hundred nodes, a few up to the limits.
    pub fn random(random: &mut Random) -> Size {
        let mut nodes = match random.below(1000) {
            0..=599 => random.between(1, 12),
            600..=899 => random.between(1, 50),
            900..=993 => random.between(1, 200),
            994..=997 => random.between(200, 1200),
            _ => random.between(1200, 4200),
        };
        let mut depth = random.between(1, 8);
        if random.one_in(200) {
            depth = random.between(21, 270);
            nodes = nodes.max(2 * depth);
        }
        let documents = if nodes > 200 { random.between(1, 2) } else { random.between(0, 4).max(random.below(2)) };
        Size { documents, nodes, depth, long_texts: random.one_in(12) }
    }
}

/// One document while it is made.
struct Making<'a> {
    random: &'a mut Random,
    events: Vec<Owned>,
    size: Size,
    left: usize,
    /// Are anchors given only to the root and its children, and each alias repeated at root level, so that a dump has anchors for all that is shared?
    at_root: bool,
    /// anchors given in this document, those of open collections too
    anchors: Vec<Vec<u8>>,
    /// anchors that aliases name
    named: Vec<Vec<u8>>,
}

/// A well-formed stream.
pub fn stream(random: &mut Random, size: Size) -> Vec<Owned> {
    let mut events = vec![Owned { style: random.below(4) as u8, ..Owned::bare(packed::STREAM_START) }];
    for _ in 0..size.documents {
        events.push(Owned { flags: random.below(2) as u8, ..Owned::bare(packed::DOCUMENT_START) });
        let left = if random.one_in(3) { size.nodes } else { random.between(1, size.nodes) };
        let at_root = !random.one_in(4);
        let mut making = Making { random, events, size, left, at_root, anchors: Vec::new(), named: Vec::new() };
        making.node(0);
        events = making.events;
        events.push(Owned { flags: random.below(2) as u8, ..Owned::bare(packed::DOCUMENT_END) });
    }
    events.push(Owned::bare(packed::STREAM_END));
    events
}

impl Making<'_> {
    fn node(&mut self, depth: usize) {
        self.left = self.left.saturating_sub(1);
        if depth > 0 && !self.anchors.is_empty() && self.random.one_in(5) {
            let anchor = self.random.pick(&self.anchors).clone();
            self.events.push(Owned::alias(&anchor));
            self.named.push(anchor);
            return;
        }
        let is_collection = self.left > 0 && depth < self.size.depth && (depth == 0 || self.random.one_in(2) || self.size.depth > 20);
        let kind = match is_collection {
            false => packed::SCALAR,
            true if self.random.one_in(2) => packed::MAPPING_START,
            true => packed::SEQUENCE_START,
        };
        self.start(kind, depth);
        if kind == packed::SCALAR {
            return;
        }
        let pairs = kind == packed::MAPPING_START;
        let most = if depth == 0 { self.left } else { self.left.min(if self.random.one_in(4) { 20 } else { 4 }) };
        let mut children = if depth == 0 && self.random.one_in(2) { most } else { self.random.between(0, most) };
        if self.size.depth > 20 {
            // a deep document: one chain with little beside it
            children = children.clamp(1, 3);
        }
        if pairs {
            children += children % 2;
        }
        for _ in 0..children {
            self.node(depth + 1);
        }
        if depth == 0 && self.at_root {
            for anchor in std::mem::take(&mut self.named) {
                if pairs {
                    self.start(packed::SCALAR, 1);
                }
                self.events.push(Owned::alias(&anchor));
            }
        }
        self.events.push(Owned::bare(kind + 1));
    }

    /// A scalar, or a collection's start.
    fn start(&mut self, kind: u8, depth: usize) {
        let may_have_anchor = depth <= 1 || !self.at_root;
        let mut event = Owned::bare(kind);
        if may_have_anchor && self.random.one_in(3) {
            let anchor = self.anchor();
            self.anchors.push(anchor.clone());
            event.anchor = anchor;
        }
        event.tag = self.tag();
        if kind == packed::SCALAR {
            event.style = self.random.below(6) as u8;
            event.flags = self.random.below(4) as u8;
            event.value = self.value();
        } else {
            event.style = self.random.below(3) as u8;
            event.flags = self.random.below(2) as u8;
        }
        self.events.push(event);
    }

    /// An anchor that is new in this document, but for once in a while.
    fn anchor(&mut self) -> Vec<u8> {
        if !self.anchors.is_empty() && self.random.one_in(400) {
            return self.random.pick(&self.anchors).clone();
        }
        loop {
            let anchor = match self.random.below(20) {
                0 => self.random.name(64),
                1 => {
                    let length = self.random.between(1, 64);
                    self.random.name(length)
                }
                2 => self.random.name(1),
                _ => format!("a{}", self.anchors.len()).into_bytes(),
            };
            if !self.anchors.contains(&anchor) {
                return anchor;
            }
        }
    }

    fn tag(&mut self) -> Vec<u8> {
        match self.random.below(16) {
            0 | 1 => b"!".to_vec(),
            2 => b"tag:yaml.org,2002:str".to_vec(),
            3 => b"tag:yaml.org,2002:seq".to_vec(),
            4 => b"tag:yaml.org,2002:map".to_vec(),
            5 => b"!loft".to_vec(),
            6 => {
                let length = if self.size.long_texts && self.random.one_in(3) { self.random.between(200, 256) } else { self.random.between(1, 12) };
                self.random.name(length)
            }
            _ => Vec::new(),
        }
    }

    fn value(&mut self) -> Vec<u8> {
        let length = match self.random.below(8) {
            0 => 0,
            1 if self.size.long_texts => self.random.between(0, 4096),
            _ => self.random.between(0, 12),
        };
        self.random.bytes(length)
    }
}

/// A damaged copy of a stream: once in a while twice damaged.
pub fn damaged(random: &mut Random, stream: &[Owned]) -> Vec<u8> {
    let mut events = stream.to_vec();
    let mut times = if random.one_in(4) { 2 } else { 1 };
    while times > 0 && random.one_in(2) {
        times -= 1;
        let at = random.below(events.len());
        let other = random.below(events.len());
        match random.below(6) {
            0 => {
                events.remove(at);
            }
            1 => events.insert(other, events[at].clone()),
            2 => events.swap(at, other),
            3 => events.truncate(at),
            4 => {
                let (_, letter) = random.pick(&crate::lists::LETTERS);
                events.insert(at, Owned { style: letter.style, flags: letter.flags, anchor: letter.anchor.to_vec(), ..Owned::bare(letter.kind) });
            }
            _ => {
                let moved = events.remove(at);
                events.insert(other.min(events.len()), moved);
            }
        }
        if events.is_empty() {
            return Vec::new();
        }
    }
    let mut bytes = pack(&events);
    for _ in 0..times {
        if bytes.is_empty() {
            break;
        }
        let at = random.below(bytes.len());
        match random.below(5) {
            0 => bytes[at] ^= 1 << random.below(8),
            1 => bytes[at] = random.next() as u8,
            2 => bytes.truncate(at),
            3 => {
                bytes.remove(at);
            }
            // in a head
            _ => {
                let places: Vec<usize> = packed::events(&bytes).map(|(place, _)| place).collect();
                if !places.is_empty() {
                    let place = *random.pick(&places) + random.below(packed::HEAD);
                    bytes[place] = random.below(11) as u8;
                }
            }
        }
    }
    bytes
}
