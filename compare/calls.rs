//! Compares calls of a writer with the original's emitter: on random documents, and in every order on a few small ones.

use crate::arena;
use crate::difference::{differ, same};
use crate::graphs::{Graph, Laid, Node, random_graph};
use crate::kelfhoam::{self, Called, Plan};
use crate::original::{Document, Emitter};
use crate::random::Random;
use crate::room::plan_is_zero;
use crate::tally::{FAR, Outcome, Tally};

/// Makes a random document and compares dumping it.
pub fn random_document(random: &mut Random, tally: &mut Tally) {
    let graph = random_graph(random);
    let strings: [&[u8]; 6] = [b"odc", b"d", b"dc", b"oddc", b"de", b"oecc"];
    let calls = if graph.nodes.len() > 300 { strings[0] } else { random.pick(&strings) };
    let laid = graph.laid(random);
    let full = calls.len() * graph.size();
    let space = if random.one_in(4) { random.between(0, graph.size()) } else { full };
    compare(&graph, &laid, calls, space, FAR, tally);
}

/// Every string of at most `length` calls, over a few small documents, into every space from nothing to enough.
pub fn every_call(length: usize, tally: &mut Tally) {
    let scalar = |value: &str| Node { kind: 1, style: 1, value: value.to_string(), ..Node::default() };
    let sequence = |links: &[u32]| Node { kind: 2, style: 1, links: links.to_vec(), ..Node::default() };
    let mapping = |links: &[u32]| Node { kind: 3, style: 2, tag: Some("!m".to_string()), links: links.to_vec(), ..Node::default() };
    let documents = [vec![scalar("15")], vec![sequence(&[2, 2]), scalar("s")], vec![mapping(&[1, 1])], vec![sequence(&[2]), sequence(&[3, 3]), scalar("s")]];
    let mut random = Random::new(0);
    for nodes in documents {
        let graph = Graph { nodes, start_implicit: true, end_implicit: false };
        let laid = graph.laid(&mut random);
        let mut strings = vec![Vec::new()];
        for _ in 0..=length {
            let mut longer = Vec::new();
            for calls in strings {
                let full = full_size(&graph, &laid, &calls);
                for space in 0..=full {
                    compare(&graph, &laid, &calls, space, 0, tally);
                }
                longer.extend(b"odec".map(|call| [&calls[..], &[call]].concat()));
            }
            strings = longer;
        }
    }
}

/// How many bytes this library writes at most with these calls.
fn full_size(graph: &Graph, laid: &Laid, calls: &[u8]) -> usize {
    let mut out = vec![0; calls.len() * graph.size()];
    let mut told = vec![Called::default(); calls.len()];
    kelfhoam::write(calls, standing(graph, laid), &mut Plan::sized(8, 32), &mut out, &mut told).len()
}

fn standing<'a>(graph: &Graph, laid: &'a Laid) -> kelfhoam::Document<'a> {
    kelfhoam::Document {
        nodes: &laid.nodes,
        links: &laid.links,
        text: &laid.text,
        n: laid.nodes.len() as u64,
        start_implicit: graph.start_implicit,
        end_implicit: graph.end_implicit,
    }
}

/// Compares and counts; `far` is added to the input's size, so that the examples told are plain ones where there are such.
fn compare(graph: &Graph, laid: &Laid, calls: &[u8], space: usize, far: usize, tally: &mut Tally) {
    let outcome = compare_calls(graph, laid, calls, space, tally);
    arena::empty();
    tally.outcome(outcome, far + 100 * calls.len() + graph.size(), || {
        format!("calls {} space {space} document {}", String::from_utf8_lossy(calls), graph.shown())
    });
}

/// Calls both, one call after another, up to the first where the original does something else that is known.
fn compare_calls(graph: &Graph, laid: &Laid, calls: &[u8], space: usize, tally: &mut Tally) -> Result<Outcome, String> {
    let (mut ours, mut theirs) = (vec![0; space], vec![0; space]);
    let mut told = vec![Called::default(); calls.len()];
    let links = laid.links.len();
    let mut plan = Plan::sized(laid.nodes.len(), laid.nodes.len() + links + 1);
    let written = kelfhoam::write(calls, standing(graph, laid), &mut plan, &mut ours, &mut told);
    plan_is_zero(&plan)?;
    let event_nodes = graph.event_nodes();
    let mut emitter = Emitter::new(&mut theirs);
    let mut state = State::default();
    for (&call, told) in calls.iter().zip(&told) {
        let (events, bytes) = (emitter.events(), emitter.taken().len());
        let result = match call {
            b'o' => emitter.open(),
            b'c' => emitter.close(),
            b'd' => emitter.dump(graph.made()),
            _ => emitter.dump(Document::new(true, true)),
        };
        let events = emitter.events() - events;
        // a dump opens the stream where it is not open: the events of the document come after its start
        let opens = (!state.opened && call != b'o') as u64;
        let node = || match events.checked_sub(opens) {
            Some(at) if call == b'd' => event_nodes[at as usize] as u64,
            _ => 0,
        };
        let reason = match (told.refusal, &result) {
            (0, Ok(true)) => {
                same("an accepted call", *told, Called { events, ..Called::default() })?;
                state.opened = true;
                state.closed |= matches!(call, b'c' | b'e');
                None
            }
            (59, Ok(false)) if !emitter.handed_null_anchor() => {
                let expected = Called { refusal: 59, events, node: node(), size: emitter.refused().unwrap_or(0), space: emitter.space_left() };
                same("a call whose events do not fit", *told, expected)?;
                state.opened |= events > 0;
                state.spoilt |= call == b'd' && events > opens;
                None
            }
            (51, Err(assertion)) if call == b'o' => Some(format!("calls: open again; asserts, {assertion}")),
            (52, Err(assertion)) if call == b'c' => Some(format!("calls: close before open; asserts, {assertion}")),
            (53, Ok(_)) if state.spoilt => {
                let name = match call {
                    b'c' => "close",
                    b'd' => "dump",
                    _ => "dump of nothing",
                };
                Some(format!("calls: {name} after a failed document; goes on"))
            }
            (54, Ok(_)) if state.closed && call == b'd' => Some("calls: dump after close; goes on".to_string()),
            (43..=46, Ok(_)) if laid.text.len() > kelfhoam::TEXT || laid.links.len() > kelfhoam::LINKS => {
                Some(format!("limit, {}: more text or links than a document may have; goes on", told.refusal))
            }
            (43, Ok(_)) if graph.has_unfit_tag() => Some("document: a tag is ! alone or has no bytes; takes it".to_string()),
            (56, Ok(_)) if call == b'd' => Some("limit, 56; goes on".to_string()),
            (58, Ok(false)) if emitter.handed_null_anchor() => {
                same("a dump without anchor", *told, Called { refusal: 58, node: node(), ..Called::default() })?;
                Some("dump: hands on a null anchor".to_string())
            }
            (58, Ok(false)) if emitter.refused().is_some() => Some("dump: the sink is full before a null anchor".to_string()),
            _ => return differ(&format!("call {}", call as char), told, result),
        };
        if let Some(reason) = reason {
            tally.answer("call: refused", told.refusal);
            same("events before", &written[..bytes], &emitter.taken()[..bytes])?;
            return Ok(Outcome::Unanswered(reason));
        }
        tally.answer(if told.refusal == 0 { "call: accepted" } else { "call: refused" }, told.refusal);
        tally.equal.calls += 1;
        tally.equal.events += events;
    }
    same("events of all calls", written, emitter.taken())?;
    same("marks and directives of events", false, emitter.was_strange())?;
    Ok(Outcome::Whole)
}

/// What the calls so far did to the writer.
#[derive(Default)]
struct State {
    opened: bool,
    closed: bool,
    /// an event did not fit after a document's start was taken
    spoilt: bool,
}
