//! Compares dumping what was loaded: each document alone, and the whole list redumped.

use crate::beside::Loads;
use crate::difference::{Difference, differ, same};
use crate::kelfhoam::{self, Answer, Called, Loaded, Redumped, Tables};
use crate::original::{Document, Emitter, Load, Parser};
use crate::room::{Room, plan_is_zero};
use crate::tally::Tally;
use crate::walk::event_nodes;

/// The node that each event of the dumped document belongs to.
fn nodes_of_dump(tables: &Tables, nodes: u64) -> Vec<u32> {
    let graph: Vec<_> = tables.nodes[..nodes as usize].iter().map(|node| (node.kind != 1).then(|| tables.links_of(node))).collect();
    event_nodes(&graph)
}

/// Opens, dumps the document in the tables, and closes. Gives the node without anchor where there is one.
pub fn compare_dump(
    room: &mut Room,
    told: &Loaded,
    document: Document,
    ours: &mut [u8],
    theirs: &mut [u8],
    tally: &mut Tally,
) -> Result<Option<u64>, Difference> {
    let mut called = [Called::default(); 3];
    let standing = kelfhoam::Document {
        nodes: &room.tables.nodes,
        links: &room.tables.links,
        text: &room.tables.text,
        n: told.nodes,
        start_implicit: told.start_implicit == 1,
        end_implicit: told.end_implicit == 1,
    };
    let written = kelfhoam::write(b"odc", standing, &mut room.plan, ours, &mut called);
    plan_is_zero(&room.plan)?;
    let mut emitter = Emitter::new(theirs);
    same("opening", Ok(called[0].refusal == 0), emitter.open())?;
    let before = emitter.taken().len();
    let dumped = emitter.dump(document);
    let accepted = |events| Called { events, ..Called::default() };
    if called[1].refusal == 58 {
        tally.answer("dump: refused", 58);
        if dumped != Ok(false) || !emitter.handed_null_anchor() {
            return differ("a dump", called[1], dumped);
        }
        let node = nodes_of_dump(&room.tables, told.nodes)[emitter.events() as usize - 1] as u64;
        same("what a refused dump tells", called, [accepted(1), Called { refusal: 58, node, ..Called::default() }, accepted(1)])?;
        same("events before a null anchor", &written[..before], &emitter.taken()[..before])?;
        return Ok(Some(node));
    }
    same("a dump", Ok(called[1].refusal == 0), dumped)?;
    let events = emitter.events() - 1;
    same("closing", Ok(called[2].refusal == 0), emitter.close())?;
    same("what the calls tell", called, [accepted(1), accepted(events), accepted(1)])?;
    same("events of a dump", written, emitter.taken())?;
    same("marks and directives of events", false, emitter.was_strange())?;
    tally.answer("dump: accepted", 0);
    tally.equal.dumps += 1;
    tally.equal.events += emitter.events();
    Ok(None)
}

/// Redumps the whole list into sinks of this space: one emitter, opened at once, gets each document in turn, and is closed at the stream's end.
/// Gives the size of the events taken.
pub fn compare_redump(input: &[u8], room: &mut Room, loads: &Loads, ours: &mut [u8], theirs: &mut [u8], tally: &mut Tally) -> Result<usize, Difference> {
    let (result, mut told) = kelfhoam::redump(input, &mut room.tables, &mut room.plan, ours);
    plan_is_zero(&room.plan)?;
    let mut parser = Parser::new(input);
    let mut emitter = Emitter::new(theirs);
    let mut expected = Redumped::default();
    let (number, accepted) = redump(input, &mut parser, &mut emitter, loads, &mut room.tables, &mut expected)?;
    // of the last load and the last call, only what a refusal tells is compared here
    if !(20..=30).contains(&number) {
        told.load = Loaded::default();
    }
    if told.write.refusal == 0 {
        told.write = Called::default();
    }
    same("the refusal of a redump", result, if number == 0 { Ok(()) } else { Err(number) })?;
    same("what a redump tells", told, expected)?;
    same("events of a redump", &ours[..told.bytes as usize], &emitter.taken()[..accepted])?;
    same("marks and directives of events", false, emitter.was_strange())?;
    tally.equal.events += expected.events;
    tally.answer(if number == 0 { "redump: accepted" } else { "redump: refused" }, number as u64);
    Ok(accepted)
}

/// The original's redump, told as this library should tell it: the number of the refusal, and how many bytes of what was taken stand.
fn redump(
    input: &[u8],
    parser: &mut Parser<'_>,
    emitter: &mut Emitter<'_>,
    loads: &Loads,
    tables: &mut Tables,
    expected: &mut Redumped,
) -> Result<(u32, usize), Difference> {
    let refusal = |emitter: &Emitter<'_>, events, node| Called { refusal: 59, events, node, size: emitter.refused().unwrap_or(0), space: emitter.space_left() };
    let told = |emitter: &Emitter<'_>, expected: &mut Redumped| {
        (expected.events, expected.bytes) = (emitter.events(), emitter.taken().len() as u64);
        expected.bytes as usize
    };
    if !emitter.open()? {
        expected.write = refusal(emitter, 0, 0);
        return Ok((59, 0));
    }
    let mut stands = told(emitter, expected);
    for (k, loaded) in loads.documents.iter().enumerate() {
        let before = emitter.events();
        let Load::Loaded(document) = parser.load() else { return Err("the original loads differently the second time".to_string()) };
        if emitter.dump(document)? {
            expected.documents += 1;
            expected.nodes += loaded.nodes;
            expected.links += loaded.links;
            stands = told(emitter, expected);
        } else if let Some((_, node)) = loads.without_anchor.filter(|(at, _)| *at == k && emitter.handed_null_anchor()) {
            expected.write = Called { refusal: 58, node, ..Called::default() };
            return Ok((58, stands));
        } else {
            let events = emitter.events() - before;
            kelfhoam::load(input, k as u64, tables);
            let node = nodes_of_dump(tables, loaded.nodes)[events as usize] as u64;
            expected.write = refusal(emitter, events, node);
            return Ok((59, told(emitter, expected)));
        }
    }
    match loads.last.0 {
        Answer::Refused(number) => {
            expected.load = loads.last.1;
            Ok((number, stands))
        }
        _ if emitter.close()? => Ok((0, told(emitter, expected))),
        _ => {
            expected.write = refusal(emitter, 0, 0);
            Ok((59, stands))
        }
    }
}
