//! The driver: makes lists and documents, has each answered by the original and by this library, and prints what was compared.

mod arena;
mod beside;
mod calls;
mod difference;
mod document;
mod dumping;
mod edges;
mod graphs;
mod limits;
mod lists;
mod original;
mod random;
mod refusal;
mod room;
mod sample;
mod streams;
mod tally;
mod walk;

#[allow(dead_code)]
#[path = "../capi/kelfhoam.rs"]
mod kelfhoam;

use beside::Beside;
use random::Random;
use std::process::exit;
use streams::Size;
use tally::{FAR, Outcome, Tally};

const HELP: &str = "options of compare/run, with what holds without them:
  --seed N      1        of all random lists and documents
  --short N     5        every list up to so many events over fourteen letters
  --inside N    6        every inside of a document up to so many events over ten letters, cut off and whole
  --second N    5        every inside of a second document up to so many events
  --streams N   300000   random well-formed streams
  --damaged N   300000   damaged copies of such streams
  --scanty N    50000    such streams, loaded into tables that may be too small
  --graphs N    200000   random documents that no load gave
  --calls N     5        every string of at most so many calls of a writer, over a few documents, into every space
  --list HEX             compare this list alone
  --sample DIR           write a fixed sample to DIR/stdin and the original's answers to DIR/stdout, and compare nothing";

struct Options {
    seed: u64,
    short: usize,
    inside: usize,
    second: usize,
    streams: usize,
    damaged: usize,
    scanty: usize,
    graphs: usize,
    calls: usize,
    list: Option<Vec<u8>>,
    sample: Option<String>,
}

fn options() -> Option<Options> {
    let mut options = Options {
        seed: 1,
        short: 5,
        inside: 6,
        second: 5,
        streams: 300000,
        damaged: 300000,
        scanty: 50000,
        graphs: 200000,
        calls: 5,
        list: None,
        sample: None,
    };
    let mut words = std::env::args().skip(1);
    while let Some(option) = words.next() {
        let value = words.next()?;
        let number = value.parse::<u64>();
        match option.as_str() {
            "--seed" => options.seed = number.ok()?,
            "--short" => options.short = number.ok()? as usize,
            "--inside" => options.inside = number.ok()? as usize,
            "--second" => options.second = number.ok()? as usize,
            "--streams" => options.streams = number.ok()? as usize,
            "--damaged" => options.damaged = number.ok()? as usize,
            "--scanty" => options.scanty = number.ok()? as usize,
            "--graphs" => options.graphs = number.ok()? as usize,
            "--calls" => options.calls = number.ok()? as usize,
            "--list" => options.list = Some(packed::from_hex(&value)?),
            "--sample" => options.sample = Some(value),
            _ => return None,
        }
    }
    Some(options)
}

/// The comparison with its counts: each list is compared and its outcome counted.
struct Driver {
    beside: Beside,
    random: Random,
    tally: Tally,
}

impl Driver {
    /// Compares a list of letters; once in some times also with a sink that may be too small.
    fn letters(&mut self, list: &[u8]) {
        let outcome = self.beside.list(list, &mut self.random, 8, &mut self.tally);
        self.tally.outcome(outcome, list.len(), || lists::shown(list));
    }

    /// Compares any other list; once in `shrink` times also with a sink that may be too small.
    fn list(&mut self, list: &[u8], shrink: usize) {
        let outcome = self.beside.list(list, &mut self.random, shrink, &mut self.tally);
        self.tally.outcome(outcome, FAR + list.len(), || lists::shown(list));
    }

    /// Compares a list with tables that may be too small.
    fn scanty_list(&mut self, list: &[u8]) {
        let outcome = self.beside.scanty_list(list, &mut self.random, &mut self.tally);
        self.tally.outcome(outcome, FAR + list.len(), || lists::shown(list));
    }

    /// Compares a list that the original must answer as a whole.
    fn whole_list(&mut self, list: &[u8]) {
        let outcome = match self.beside.list(list, &mut self.random, 1, &mut self.tally) {
            Ok(Outcome::Unanswered(why)) => Err(format!("the original should answer this list: {why}")),
            outcome => outcome,
        };
        self.tally.outcome(outcome, list.len(), || lists::shown(list));
    }

    /// Compares a list at a limit, whose first answer is known.
    fn limit(&mut self, limit: &edges::Limit) {
        let first = self.beside.first_refusal(&limit.list);
        let outcome = match self.beside.list(&limit.list, &mut self.random, 1, &mut self.tally) {
            Ok(_) if first != limit.refusal => Err(format!("answers {first:?} and not {:?}", limit.refusal)),
            outcome => outcome,
        };
        self.tally.outcome(outcome, limit.list.len(), || lists::shown(&limit.list));
    }
}

fn main() {
    let Some(options) = options() else {
        println!("{HELP}");
        exit(2);
    };
    original::prepare();
    if let Some(folder) = &options.sample {
        if let Err(error) = sample::write(folder) {
            eprintln!("compare: {folder}: {error}");
            exit(2);
        }
        return;
    }
    println!("seed {}", options.seed);
    let mut driver = Driver { beside: Beside::new(), random: Random::new(options.seed), tally: Tally::default() };
    if let Some(list) = &options.list {
        driver.tally.begin("one list");
        driver.list(list, 1);
    } else {
        everything(&mut driver, &options);
    }
    if !driver.tally.print() {
        exit(1);
    }
}

fn everything(driver: &mut Driver, options: &Options) {
    driver.tally.begin("short lists");
    lists::short(options.short, |list| driver.letters(list));
    driver.tally.begin("insides of a document");
    lists::inside(options.inside, |list| driver.letters(list));
    driver.tally.begin("insides of a second document");
    lists::second(options.second, |list| driver.letters(list));
    driver.tally.begin("lists at and past limits");
    for limit in edges::limits() {
        driver.limit(&limit);
    }
    driver.tally.begin("lists of the sample");
    for list in sample::lists() {
        driver.whole_list(&list);
    }
    driver.tally.begin("random streams");
    for _ in 0..options.streams {
        let size = Size::random(&mut driver.random);
        let stream = streams::stream(&mut driver.random, size);
        driver.list(&streams::pack(&stream), 2);
    }
    driver.tally.begin("damaged streams");
    for _ in 0..options.damaged {
        let size = Size::random(&mut driver.random);
        let stream = streams::stream(&mut driver.random, size);
        let list = streams::damaged(&mut driver.random, &stream);
        driver.list(&list, 4);
    }
    driver.tally.begin("streams into tables that may be too small");
    for _ in 0..options.scanty {
        let size = Size::random(&mut driver.random);
        let list = streams::pack(&streams::stream(&mut driver.random, size));
        driver.scanty_list(&list);
    }
    driver.tally.begin("documents that no load gave");
    for _ in 0..options.graphs {
        calls::random_document(&mut driver.random, &mut driver.tally);
    }
    driver.tally.begin("calls of a writer");
    calls::every_call(options.calls, &mut driver.tally);
}
