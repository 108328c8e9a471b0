//! Compares a refused load, and names what the original does where this library refuses and it need not.

use crate::difference::{Difference, differ, same};
use crate::kelfhoam::{Loaded, Mark, Tables};
use crate::limits::first_without_space;
use crate::original::{Load, Parser};
use crate::room::is_full;
use crate::tally::Tally;

/// A refusal; gives the reason where the original did something else that is known.
pub fn compare_refusal(
    input: &[u8],
    number: u32,
    told: &Loaded,
    load: &Load,
    parser: &Parser<'_>,
    tables: &Tables,
    tally: &mut Tally,
) -> Result<Option<String>, Difference> {
    let expected = match (number, load) {
        (21, Load::Failed(failure)) if failure.is_silent() => {
            let place = parser.next_place();
            let Err(fault) = packed::read(input, place as usize) else { return differ("a fault", told, "none") };
            tally.answer("source: fault", fault);
            Loaded { fault, place, ..Loaded::default() }
        }
        (22, Load::Failed(failure)) if failure.is_silent() => {
            let next = packed::read(input, parser.next_place() as usize);
            if next != Ok(None) {
                return differ("no event there", told, next);
            }
            Loaded::default()
        }
        (24, Load::Failed(failure)) if failure.is_undefined_alias() => Loaded { at: failure.at, ..Loaded::default() },
        (27, Load::Failed(failure)) if failure.is_duplicate_anchor() => Loaded { at: failure.at, first: failure.first, ..Loaded::default() },
        (23, _) => return beyond_refusal(input, told, load, parser, order).map(Some),
        (25 | 26 | 28 | 29 | 30, _) => {
            let at = told.at.index;
            let before = packed::events(input).take_while(|(place, _)| (*place as u64) < at);
            let Some((start, _)) = before.filter(|(_, event)| event.kind == packed::DOCUMENT_START).last() else {
                return differ("a refusal for want of space", (number, told), "no document");
            };
            same("a refusal for want of space", Some((at, number)), first_without_space(input, start as u64, at, tables))?;
            let what = if number == 30 || is_full(tables) { "limit" } else { "too small a table" };
            return beyond_refusal(input, told, load, parser, |_, at_once, load| limit(what, number, at_once, load)).map(Some);
        }
        _ => return differ("a refusal", (number, told), describe(load)),
    };
    same("what a refusal tells", *told, expected)?;
    Ok(None)
}

/// Where the original need not refuse: it must have come as far as the refused event, and what it did there or later is named.
fn beyond_refusal(
    input: &[u8],
    told: &Loaded,
    load: &Load,
    parser: &Parser<'_>,
    name: impl Fn(&packed::Event<'_>, Option<Mark>, &Load) -> Option<String>,
) -> Result<String, Difference> {
    let Some((line, (place, event))) = packed::events(input).enumerate().find(|(_, (place, _))| *place as u64 >= told.at.index) else {
        return differ("a refused event", told, "no such event");
    };
    let at = Mark { index: place as u64, line: line as u64, column: 0 };
    same("what a refusal tells", *told, Loaded { at, ..Loaded::default() })?;
    let latest = parser.latest_place();
    if latest < at.index {
        return differ("a refused event", told, format!("stopped before, at {latest}: {}", describe(load)));
    }
    match name(&event, (latest == at.index).then_some(at), load) {
        Some(name) => Ok(name),
        None => differ("a refused event", told, describe(load)),
    }
}

/// Names what the original does with an event that is out of turn. `at_once` is the event's mark where the original went no further.
fn order(event: &packed::Event<'_>, at_once: Option<Mark>, load: &Load) -> Option<String> {
    match (load, at_once) {
        (Load::Asserted(assertion), Some(_)) => return Some(format!("order: asserts, {assertion}")),
        (Load::Failed(failure), Some(at)) if failure.is_undefined_alias() && failure.at == at => {
            return Some("order: unknown alias after the root; says found undefined alias".to_string());
        }
        (Load::Failed(failure), Some(at)) if failure.is_duplicate_anchor() && failure.at == at => {
            return Some("order: second root with a known anchor; says found duplicate anchor".to_string());
        }
        _ => {}
    }
    let what = match (event.kind, load) {
        (packed::ALIAS, _) => "alias after the root",
        (packed::SCALAR | packed::SEQUENCE_START | packed::MAPPING_START, _) => "second root",
        (packed::MAPPING_END, _) => "key without value",
        (packed::DOCUMENT_END, Load::Loaded(document)) if document.nodes().len() == 0 => "document without root",
        (packed::DOCUMENT_END, Load::Loaded(_)) => "unclosed collection",
        _ => return None,
    };
    Some(format!("order: {what}; {}", went_on(load)))
}

/// Names what the original does past a limit, or past the end of a table.
fn limit(what: &str, number: u32, at_once: Option<Mark>, load: &Load) -> Option<String> {
    if matches!((load, at_once), (Load::Asserted(_), Some(_))) {
        return None;
    }
    Some(format!("{what}, {number}; {}", went_on(load)))
}

fn went_on(load: &Load) -> &'static str {
    match load {
        Load::Loaded(_) => "loads it",
        Load::Failed(failure) if failure.is_silent() => "takes it, then has no event",
        Load::Failed(_) => "takes it, then tells a composer error",
        Load::Asserted(_) => "takes it, then asserts",
    }
}

pub fn describe(load: &Load) -> String {
    match load {
        Load::Loaded(document) => format!("loaded {} nodes", document.nodes().len()),
        Load::Failed(failure) => format!("failed: {failure:?}"),
        Load::Asserted(assertion) => format!("asserted at {assertion}"),
    }
}
