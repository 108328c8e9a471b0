//! Loading and dumping beside the Rust original, in one process, on the same packed events; bench/beside builds and runs it.
//!
//! Times are CPU time, the least of ROUNDS (15) rounds that take the sides in turn, in nanoseconds an event of the input. Both sides' output is compared first.
//! The original allocates: its load is measured with the deletion of the loaded document, and its dump deletes what it dumps. Ours works in lent tables,
//! which each call clears; memset over the same tables is measured beside it.
//! `beside NAME NODES OPERATION SIDE TIMES` runs one of them alone, for a profiler.
#[path = "../capi/kelfhoam.rs"]
#[allow(dead_code)]
mod kelfhoam;

use kelfhoam::{Answer, Called, Document, Plan, Tables};
use std::hint::black_box;
use std::mem::{size_of_val, MaybeUninit};

// ---- the clock ----

#[repr(C)]
struct Timespec {
    seconds: i64,
    nanoseconds: i64,
}

extern "C" {
    fn clock_gettime(clock: i32, time: *mut Timespec) -> i32;
}

const CLOCK_PROCESS_CPUTIME_ID: i32 = 2;

/// CPU time of this process, in nanoseconds.
fn now() -> u64 {
    let mut time = Timespec { seconds: 0, nanoseconds: 0 };
    unsafe { clock_gettime(CLOCK_PROCESS_CPUTIME_ID, &mut time) };
    time.seconds as u64 * 1_000_000_000 + time.nanoseconds as u64
}

// ---- the inputs ----

/// Packed events of one document, with what it needs of each table.
#[derive(Default)]
struct Book {
    bytes: Vec<u8>,
    events: usize,
    nodes: usize,
    links: usize,
    text: usize,
    anchors: usize,
    collections: usize,
    untagged: bool, // no node has a tag; else two nodes in three have the tag !k
    made: usize,
}

const SEQUENCE: u8 = 7;
const MAPPING: u8 = 9;

impl Book {
    fn event(&mut self, head: [u8; 3], anchor: &str, tag: &str, value: &str) {
        self.bytes.extend(head);
        for text in [anchor, tag, value] {
            self.bytes.extend((text.len() as u16).to_be_bytes());
        }
        for text in [anchor, tag, value] {
            self.bytes.extend(text.as_bytes());
        }
        self.events += 1;
    }

    fn node(&mut self, kind: u8, anchor: &str, value: &str) {
        let tag = if self.untagged || self.nodes % 3 == 0 { "" } else { "!k" };
        self.event([kind, 1, u8::from(tag.is_empty())], anchor, tag, value);
        self.nodes += 1;
        self.links += 1;
        self.text += if tag.is_empty() { "tag:yaml.org,2002:str".len() } else { tag.len() } + value.len();
        self.anchors += usize::from(!anchor.is_empty());
    }

    /// A scalar of 2 to 12 bytes.
    fn scalar(&mut self, anchor: &str) {
        self.made += 1;
        let value = format!("{:04}-seam-mm", self.made * 7919 % 10_000);
        self.node(6, anchor, &value[..2 + self.made * 5 % 11]);
    }

    fn alias(&mut self, anchor: &str) {
        self.event([5, 0, 0], anchor, "", "");
        self.links += 1;
    }

    fn start(&mut self, kind: u8) {
        self.node(kind, "", "");
        self.collections += 1;
    }

    fn end(&mut self, kind: u8) {
        self.event([kind + 1, 0, 0], "", "", "");
    }

    fn made(root: u8, untagged: bool, children: impl FnOnce(&mut Book)) -> Book {
        let mut book = Book { untagged, ..Book::default() };
        book.event([1, 0, 0], "", "", "");
        book.event([3, 0, 1], "", "", "");
        book.start(root);
        book.links = 0; // the root is nobody's child
        children(&mut book);
        book.end(root);
        book.event([4, 0, 1], "", "", "");
        book.event([2, 0, 0], "", "", "");
        book
    }

    /// A mapping of scalars and small collections, with up to four anchors and eight aliases.
    fn shallow(n: usize, untagged: bool) -> Book {
        Book::made(MAPPING, untagged, |b| {
            let (mut entry, mut aliases) = (0, 0);
            while b.nodes < n {
                let left = n - b.nodes;
                b.scalar("");
                let marked = ["s0", "s1", "s2", "s3"][b.anchors.min(3)];
                if entry > 0 && (left == 1 || entry % 8 == 5 && aliases < 8) {
                    b.alias(["s0", "s1", "s2", "s3"][entry % b.anchors]);
                    aliases += 1;
                } else if entry % 8 == 3 && left >= 5 {
                    b.start(SEQUENCE);
                    (0..3).for_each(|_| b.scalar(""));
                    b.end(SEQUENCE);
                } else if entry % 8 == 6 && left >= 6 {
                    b.start(MAPPING);
                    (0..4).for_each(|_| b.scalar(""));
                    b.end(MAPPING);
                } else if entry % 16 == 0 && b.anchors < 4 {
                    b.scalar(marked);
                } else {
                    b.scalar("");
                }
                entry += 1;
            }
        })
    }

    /// A sequence of two shared scalars and of branches that are nested to 256 open collections, or as deep as the nodes allow.
    fn deep(n: usize) -> Book {
        Book::made(SEQUENCE, false, |b| {
            for anchor in ["s0", "s1"] {
                b.scalar(anchor);
                b.alias(anchor);
            }
            while b.nodes < n {
                b.branch(n, 2);
            }
        })
    }

    /// A collection at a depth, with a scalar and one more branch in it, while there are fewer than n nodes.
    fn branch(&mut self, n: usize, depth: usize) {
        let kind = if depth % 2 == 0 { MAPPING } else { SEQUENCE };
        self.start(kind);
        if self.nodes + 2 <= n {
            self.scalar("");
            if depth < 256 {
                self.branch(n, depth + 1);
            } else {
                self.scalar("");
            }
        }
        self.end(kind);
    }

    /// A sequence of scalars, every second anchored and followed by its alias.
    fn anchored(n: usize) -> Book {
        Book::made(SEQUENCE, false, |b| {
            while b.nodes < n {
                if b.nodes % 2 == 0 {
                    b.scalar("");
                } else {
                    let anchor = format!("a{}", b.anchors);
                    b.scalar(&anchor);
                    b.alias(&anchor);
                }
            }
        })
    }

    fn cut_tables(&self) -> Tables {
        Tables::sized(self.nodes, self.links, self.text, self.anchors, self.links)
    }

    fn cut_plan(&self) -> Plan {
        Plan::sized(self.nodes, self.collections + self.links + 1)
    }

    /// Space for the output: every tag is written, and anchors get names of their own.
    fn space(&self) -> usize {
        self.bytes.len() + 64 * self.events
    }
}

fn books() -> Vec<(&'static str, usize, Book)> {
    let mut books = Vec::new();
    for n in [10, 100, 1000, 4000] {
        books.push(("shallow", n, Book::shallow(n, false)));
        books.push(("deep", n, Book::deep(n)));
        books.push(("anchored", n, Book::anchored(n)));
        if n <= 1000 {
            books.push(("untagged", n, Book::shallow(n, true)));
        }
    }
    books.sort_by_key(|b| ["shallow", "untagged", "deep", "anchored"].iter().position(|name| *name == b.0));
    books
}

// ---- the original ----

fn original_load(input: &[u8]) -> original::yaml_document_t {
    let mut parser = MaybeUninit::uninit();
    let mut document = MaybeUninit::uninit();
    unsafe {
        original::parser_over(parser.as_mut_ptr(), input);
        assert!(original::yaml_parser_load(parser.as_mut_ptr(), document.as_mut_ptr()).ok);
        document.assume_init()
    }
}

/// The stand-in for the parser alone: takes every event and deletes it.
fn original_parse(input: &[u8]) {
    let mut parser = MaybeUninit::uninit();
    let mut event = MaybeUninit::<original::yaml_event_t>::uninit();
    unsafe {
        original::parser_over(parser.as_mut_ptr(), input);
        loop {
            assert!(original::yaml_parser_parse(parser.as_mut_ptr(), event.as_mut_ptr()).ok);
            let last = (*event.as_ptr()).type_ == original::YAML_STREAM_END_EVENT;
            original::yaml_event_delete(event.as_mut_ptr());
            if last {
                break;
            }
        }
    }
}

fn original_dump(document: &mut original::yaml_document_t, out: &mut [u8]) -> usize {
    let mut emitter = MaybeUninit::uninit();
    let mut used = 0;
    unsafe {
        original::emitter_over(emitter.as_mut_ptr(), out, &mut used);
        assert!(original::yaml_emitter_open(emitter.as_mut_ptr()).ok);
        assert!(original::yaml_emitter_dump(emitter.as_mut_ptr(), document).ok);
        assert!(original::yaml_emitter_close(emitter.as_mut_ptr()).ok);
    }
    used as usize
}

fn original_redump(input: &[u8], out: &mut [u8]) -> usize {
    let mut parser = MaybeUninit::uninit();
    let mut emitter = MaybeUninit::uninit();
    let mut document = MaybeUninit::uninit();
    let mut used = 0;
    unsafe {
        original::parser_over(parser.as_mut_ptr(), input);
        original::emitter_over(emitter.as_mut_ptr(), out, &mut used);
        assert!(original::yaml_emitter_open(emitter.as_mut_ptr()).ok);
        loop {
            assert!(original::yaml_parser_load(parser.as_mut_ptr(), document.as_mut_ptr()).ok);
            if original::node_count(document.as_ptr()) == 0 {
                original::yaml_document_delete(document.as_mut_ptr());
                break;
            }
            assert!(original::yaml_emitter_dump(emitter.as_mut_ptr(), document.as_mut_ptr()).ok);
        }
        assert!(original::yaml_emitter_close(emitter.as_mut_ptr()).ok);
    }
    used as usize
}

// ---- ours ----

fn our_load(input: &[u8], tables: &mut Tables) -> kelfhoam::Loaded {
    let (answer, told) = kelfhoam::load(input, 0, tables);
    assert!(answer == Answer::Loaded, "{answer:?} {told:?}");
    told
}

fn our_dump(told: &kelfhoam::Loaded, tables: &Tables, plan: &mut Plan, out: &mut [u8]) -> usize {
    let document = Document {
        nodes: &tables.nodes,
        links: &tables.links,
        text: &tables.text,
        n: told.nodes,
        start_implicit: told.start_implicit == 1,
        end_implicit: told.end_implicit == 1,
    };
    let mut calls = [Called::default(); 3];
    let used = kelfhoam::write(b"odc", document, plan, out, &mut calls).len();
    assert!(calls.iter().all(|c| c.refusal == 0), "{calls:?}");
    used
}

fn our_redump(input: &[u8], tables: &mut Tables, plan: &mut Plan, out: &mut [u8]) -> usize {
    let (done, told) = kelfhoam::redump(input, tables, plan, out);
    assert!(done.is_ok(), "{done:?} {told:?}");
    told.bytes as usize
}

fn clear<T>(table: &mut Vec<T>) {
    let bytes = size_of_val(&table[..]);
    unsafe { std::ptr::write_bytes(table.as_mut_ptr().cast::<u8>(), 0, bytes) };
    black_box(table.as_mut_ptr());
}

fn clear_tables(t: &mut Tables) {
    clear(&mut t.nodes);
    clear(&mut t.links);
    clear(&mut t.text);
    clear(&mut t.anchors);
    clear(&mut t.waiting);
}

fn clear_plan(p: &mut Plan) {
    clear(&mut p.counting);
    clear(&mut p.steps);
}

/// The same bytes from both sides, and as many nodes.
fn agree(book: &Book) {
    let mut theirs = vec![0; book.space()];
    let mut ours = vec![0; book.space()];
    let mut document = original_load(&book.bytes);
    let nodes = unsafe { original::node_count(&document) };
    let bytes = original_dump(&mut document, &mut theirs);
    for (mut tables, mut plan) in [(Tables::full(), Plan::full()), (book.cut_tables(), book.cut_plan())] {
        let told = our_load(&book.bytes, &mut tables);
        let counts = [told.nodes, told.links, told.text, told.anchors].map(|n| n as usize);
        assert_eq!(counts, [book.nodes, book.links, book.text, book.anchors]);
        assert_eq!(nodes, book.nodes);
        let used = our_dump(&told, &tables, &mut plan, &mut ours);
        assert!(ours[..used] == theirs[..bytes], "other bytes dumped");
        let used = our_redump(&book.bytes, &mut tables, &mut plan, &mut ours);
        assert!(ours[..used] == theirs[..bytes], "other bytes redumped");
    }
    let used = original_redump(&book.bytes, &mut ours);
    assert!(ours[..used] == theirs[..bytes], "the original redumps otherwise");
}

// ---- measuring ----

/// A side does its work so many times and tells the time that counts.
type Side<'a> = Box<dyn FnMut(usize) -> u64 + 'a>;

fn side<'a, T>(mut work: impl FnMut() -> T + 'a) -> Side<'a> {
    Box::new(move |times| {
        let start = now();
        for _ in 0..times {
            black_box(work());
        }
        now() - start
    })
}

const SIDES: [&str; 5] = ["original", "full", "cut", "memset-full", "memset-cut"];
const OPERATIONS: [&str; 3] = ["load", "dump", "redump"];

/// The five sides of an operation: the original, ours with full-sized and with cut tables, and memset over the tables of both.
fn sides<'a>(operation: &str, book: &'a Book) -> [Side<'a>; 5] {
    let input = &book.bytes[..];
    let lent = || [(Tables::full(), Plan::full()), (book.cut_tables(), book.cut_plan())];
    let mut out = vec![0; book.space()];
    match operation {
        "load" => {
            let [(mut t1, _), (mut t2, _)] = lent();
            let [(mut t3, _), (mut t4, _)] = lent();
            [
                side(move || unsafe { original::yaml_document_delete(black_box(&mut original_load(black_box(input)))) }),
                side(move || our_load(black_box(input), &mut t1)),
                side(move || our_load(black_box(input), &mut t2)),
                side(move || clear_tables(&mut t3)),
                side(move || clear_tables(&mut t4)),
            ]
        }
        "dump" => {
            let [full, cut] = lent().map(|(mut tables, mut plan)| {
                let mut out = vec![0; book.space()];
                let told = our_load(input, &mut tables);
                side(move || our_dump(&told, &tables, &mut plan, &mut out))
            });
            let [(_, mut p3), (_, mut p4)] = lent();
            // a dump uses its document up, so some are loaded before the clock starts; few enough to stay in the caches
            let batch = 2000_usize.div_ceil(book.nodes);
            let original: Side = Box::new(move |times| {
                let (mut left, mut spent) = (times, 0);
                while left > 0 {
                    let mut documents: Vec<_> = (0..batch.min(left)).map(|_| original_load(input)).collect();
                    let start = now();
                    for document in &mut documents {
                        black_box(original_dump(document, &mut out));
                    }
                    spent += now() - start;
                    left -= documents.len();
                }
                spent
            });
            [original, full, cut, side(move || clear_plan(&mut p3)), side(move || clear_plan(&mut p4))]
        }
        "redump" => {
            let [full, cut] = lent().map(|(mut tables, mut plan)| {
                let mut out = vec![0; book.space()];
                side(move || our_redump(black_box(input), &mut tables, &mut plan, &mut out))
            });
            let [memset_full, memset_cut] = lent().map(|(mut tables, mut plan)| {
                side(move || {
                    clear_tables(&mut tables);
                    clear_plan(&mut plan);
                })
            });
            [side(move || original_redump(black_box(input), &mut out)), full, cut, memset_full, memset_cut]
        }
        _ => panic!("no operation {operation}"),
    }
}

/// Nanoseconds of one time of each side's work: the least of the rounds, each of which takes the sides in turn.
fn measure<const N: usize>(sides: &mut [Side; N], rounds: usize) -> [f64; N] {
    const LONG_ENOUGH: u64 = 6_000_000;
    let mut times = [1; N];
    for (side, times) in sides.iter_mut().zip(&mut times) {
        loop {
            let spent = side(*times);
            if spent >= LONG_ENOUGH {
                break;
            }
            *times = (*times * 2).max((*times as f64 * LONG_ENOUGH as f64 * 1.1 / spent.max(1000) as f64) as usize);
        }
    }
    let mut least = [f64::INFINITY; N];
    for _ in 0..rounds {
        for ((side, times), least) in sides.iter_mut().zip(times).zip(&mut least) {
            *least = least.min(side(times) as f64 / times as f64);
        }
    }
    least
}

struct Row {
    operation: &'static str,
    name: &'static str,
    nodes: usize,
    ns: [f64; 5], // an event
}

impl Row {
    fn full(&self) -> f64 {
        self.ns[1] / self.ns[0]
    }

    fn cut(&self) -> f64 {
        self.ns[2] / self.ns[0]
    }
}

fn judged(aim: &str, held: Vec<(String, bool)>) {
    let kept = held.iter().filter(|h| h.1).count();
    println!("{aim}: {kept} of {} hold", held.len());
    for (what, _) in held.iter().filter(|h| !h.1) {
        println!("  not: {what}");
    }
}

fn aims(rows: &[Row]) {
    println!("aims");
    let large = rows.iter().filter(|r| r.nodes >= 1000);
    judged(
        "at 1,000 nodes and more at most half of the original's time, full-sized tables and cut ones",
        large
            .flat_map(|r| [("full", r.full()), ("cut", r.cut())].map(|(t, x)| (format!("{} {} {} {t}: {x:.2}", r.operation, r.name, r.nodes), x <= 0.5)))
            .collect(),
    );
    let small = rows.iter().filter(|r| r.nodes == 100);
    judged(
        "at 100 nodes with full-sized tables no more than the original's",
        small.map(|r| (format!("{} {} 100: {:.2}", r.operation, r.name, r.full()), r.full() <= 1.0)).collect(),
    );
    let mut flat = Vec::new();
    for r in rows.iter().filter(|r| r.nodes == 100) {
        let later = rows.iter().filter(|l| (l.operation, l.name) == (r.operation, r.name) && l.nodes > 100);
        if let Some(most) = later.max_by(|a, b| a.ns[2].total_cmp(&b.ns[2])) {
            let factor = most.ns[2] / r.ns[2];
            let theirs = most.ns[0] / r.ns[0];
            flat.push((format!("{} {}: {factor:.2} at {} (the original's {theirs:.2})", r.operation, r.name, most.nodes), factor <= 1.3));
        }
    }
    judged("the cost of an event with cut tables grows at most by 1.3 from 100 nodes on", flat);
}

fn main() {
    let books = books();
    let asked: Vec<String> = std::env::args().skip(1).collect();
    if let [name, nodes, operation, which, times] = &asked[..] {
        let (_, _, book) = books.iter().find(|b| b.0 == name && b.1.to_string() == *nodes).expect("no such input");
        let which = SIDES.iter().position(|s| s == which).expect("no such side");
        let spent = sides(operation, book)[which](times.parse().expect("no number"));
        println!("{spent} ns");
        return;
    }
    let rounds = std::env::var("ROUNDS").ok().and_then(|r| r.parse().ok()).unwrap_or(15);
    println!("inputs: shallow, deep and anchored have the tag !k on two nodes in three, untagged has no tags; the text of 4,000 untagged nodes would not fit");
    println!("{:<9} {:>5} {:>6} {:>6} {:>7} {:>6} {:>6} {:>11}", "input", "nodes", "events", "links", "anchors", "text", "bytes", "collections");
    for (name, nodes, b) in &books {
        agree(b);
        println!("{name:<9} {nodes:>5} {:>6} {:>6} {:>7} {:>6} {:>6} {:>11}", b.events, b.links, b.anchors, b.text, b.bytes.len(), b.collections);
    }
    println!("both sides wrote the same bytes for each input, and loaded as many nodes\n");
    let mut rows = Vec::new();
    for operation in OPERATIONS {
        println!("{operation}, nanoseconds an event; ratio is ours / original; [memset] is the time of memset over the tables, once");
        println!("{:<9} {:>5} {:>9} {:>9} {:>6} {:>9} {:>9} {:>6} {:>9}", "input", "nodes", "original", "full", "ratio", "[memset]", "cut", "ratio", "[memset]");
        for (name, nodes, book) in &books {
            // a load leaves the stream's end to the next one
            let events = book.events - usize::from(operation == "load");
            let ns = measure(&mut sides(operation, book), rounds).map(|ns| ns / events as f64);
            let row = Row { operation, name, nodes: *nodes, ns };
            let [theirs, full, cut, memset_full, memset_cut] = ns;
            println!(
                "{name:<9} {nodes:>5} {theirs:>9.1} {full:>9.1} {:>6.2} {memset_full:>9.1} {cut:>9.1} {:>6.2} {memset_cut:>9.1}",
                row.full(),
                row.cut()
            );
            rows.push(row);
        }
        println!();
    }
    println!("of the original's load, the stand-in for its parser, with each event deleted at once, alone, nanoseconds an event:");
    for (name, nodes, book) in books.iter().filter(|b| b.1 == 1000) {
        let [ns] = measure(&mut [side(|| original_parse(black_box(&book.bytes)))], rounds);
        println!("{name:<9} {nodes:>5} {:>9.1}", ns / book.events as f64);
    }
    println!();
    aims(&rows);
}
