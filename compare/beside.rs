//! Compares one list of packed events: load by load, document by document dumped alone, and the whole redumped.

use crate::arena;
use crate::difference::{Difference, differ, same};
use crate::document::compare_document;
use crate::dumping::{compare_dump, compare_redump};
use crate::kelfhoam::{self, Answer, Loaded, Tables};
use crate::limits::first_without_space;
use crate::original::{Load, Parser};
use crate::random::Random;
use crate::refusal::{compare_refusal, describe};
use crate::room::{Room, all_zero};
use crate::tally::{Outcome, Tally};

/// What both told of a list's loads.
pub struct Loads {
    pub documents: Vec<Loaded>,
    /// the answer after the documents
    pub last: (Answer, Loaded),
    /// the first document that this library does not dump since a shared node has no anchor, and that node
    pub without_anchor: Option<(usize, u64)>,
    /// why the original did not answer all of it
    pub reason: Option<String>,
}

pub struct Beside {
    rooms: Vec<Room>,
    ours: Vec<u8>,
    theirs: Vec<u8>,
}

impl Beside {
    pub fn new() -> Beside {
        Beside { rooms: vec![Room::sized(16, 512), Room::sized(64, 4096), Room::sized(512, 32768), Room::full()], ours: Vec::new(), theirs: Vec::new() }
    }

    /// Compares all answers to a list; once in `shrink` times also with a sink that may be too small.
    pub fn list(&mut self, input: &[u8], random: &mut Random, shrink: usize, tally: &mut Tally) -> Result<Outcome, Difference> {
        let outcome = self.compare(input, random, shrink, false, tally);
        arena::empty();
        outcome
    }

    /// Compares all answers to a list with tables that may be too small.
    pub fn scanty_list(&mut self, input: &[u8], random: &mut Random, tally: &mut Tally) -> Result<Outcome, Difference> {
        let outcome = self.compare(input, random, 8, true, tally);
        arena::empty();
        outcome
    }

    /// The number with which the first load is refused, if it is.
    pub fn first_refusal(&mut self, input: &[u8]) -> Option<u32> {
        match kelfhoam::load(input, 0, &mut self.rooms.last_mut().expect("the full room").tables).0 {
            Answer::Refused(number) => Some(number),
            _ => None,
        }
    }

    fn compare(&mut self, input: &[u8], random: &mut Random, shrink: usize, scanty: bool, tally: &mut Tally) -> Result<Outcome, Difference> {
        let events = packed::events(input).count();
        // each node may get a default tag, and in a dump a generated anchor
        let text = input.len() + 21 * events;
        let space = input.len() + 40 * events + 64;
        if self.ours.len() < space {
            self.ours.resize(space, 0);
            self.theirs.resize(space, 0);
        }
        let mut scanty = scanty.then(|| Room::scanty(events, text, random));
        let room = match &mut scanty {
            Some(room) => room,
            None => self.rooms.iter_mut().find(|room| events <= room.events && text <= room.text).expect("the full room"),
        };
        let (ours, theirs) = (&mut self.ours[..space], &mut self.theirs[..space]);
        let loads = compare_loads(input, room, ours, theirs, tally)?;
        let size = compare_redump(input, room, &loads, ours, theirs, tally)?;
        tally.equal.redumps += 1;
        if loads.without_anchor.is_none() && random.one_in(shrink) {
            let space = random.between(0, size);
            compare_redump(input, room, &loads, &mut ours[..space], &mut theirs[..space], tally)
                .map_err(|difference| format!("with space {space}: {difference}"))?;
            tally.equal.small_sinks += 1;
        }
        Ok(loads.reason.map_or(Outcome::Whole, Outcome::Unanswered))
    }
}

/// Loads with both until the first answer that is no document.
fn compare_loads(input: &[u8], room: &mut Room, ours: &mut [u8], theirs: &mut [u8], tally: &mut Tally) -> Result<Loads, Difference> {
    let mut parser = Parser::new(input);
    let mut documents = Vec::new();
    let mut without_anchor = None;
    loop {
        let (answer, told) = kelfhoam::load(input, documents.len() as u64, &mut room.tables);
        let load = parser.load();
        let last = match answer {
            Answer::Loaded => {
                let Load::Loaded(document) = load else { return differ("a load", (answer, told), describe(&load)) };
                compare_document(input, &room.tables, &told, &document)?;
                same("space for the document", None, first_without_space(input, told.start.index, told.end.index, &room.tables))?;
                let equal = &mut tally.equal;
                equal.documents += 1;
                equal.nodes += told.nodes;
                equal.links += told.links;
                equal.text += told.text;
                equal.marks += 2 + 2 * told.nodes;
                tally.answer("load: loaded", 0);
                let node = compare_dump(room, &told, document, ours, theirs, tally)?;
                if let (None, Some(node)) = (without_anchor, node) {
                    without_anchor = Some((documents.len(), node));
                }
                documents.push(told);
                continue;
            }
            Answer::Ended => {
                tally.answer("load: ended", 0);
                compare_end(input, documents.len() as u64, &load, &mut parser, &told, &mut room.tables)?;
                None
            }
            Answer::Refused(number) => {
                tally.answer("load: refused", number as u64);
                all_zero(&room.tables, 0, 0, 0)?;
                compare_refusal(input, number, &told, &load, &parser, &room.tables, tally)?
            }
        };
        let reason = if without_anchor.is_some() { Some("dump: hands on a null anchor".to_string()) } else { last };
        return Ok(Loads { documents, last: (answer, told), without_anchor, reason });
    }
}

/// The stream's end, and that it lasts.
fn compare_end(input: &[u8], skip: u64, load: &Load, parser: &mut Parser<'_>, told: &Loaded, tables: &mut Tables) -> Result<(), Difference> {
    fn ended(load: &Load, parser: &Parser<'_>) -> Result<(), Difference> {
        match load {
            Load::Loaded(document) if document.nodes().len() == 0 && parser.stream_ended() => Ok(()),
            other => differ("the stream's end", "ended", describe(other)),
        }
    }
    ended(load, parser)?;
    same("what is told at the end", *told, Loaded::default())?;
    all_zero(tables, 0, 0, 0)?;
    let again = parser.load();
    ended(&again, parser)?;
    same("a load after the end", kelfhoam::load(input, skip + 1, tables), (Answer::Ended, Loaded::default()))
}
