//! Kelfhoam from Rust: `example FILE` lists the documents in a file of packed events on standard error, and writes them again to standard output.
//!
//!     rustc --edition 2021 -O -L crates/kelfhoam_c/out -o example capi/example.rs
//!
//! A refusal is told with its number and its place, and ends with status 1 and nothing on standard output; bad usage ends with 2. It prints what example.c does.
#[allow(dead_code)]
mod kelfhoam;

use kelfhoam::{Answer, Called, Loaded, Plan, Tables};
use std::io::Write;
use std::process::ExitCode;

// what kelfhoam.h has as well
const _: () = {
    use std::mem::size_of;
    assert!(size_of::<kelfhoam::Node>() == 72 && size_of::<kelfhoam::Anchor>() == 72);
    assert!(size_of::<kelfhoam::Counted>() == 12 && size_of::<kelfhoam::Step>() == 8);
    assert!(size_of::<Loaded>() == 160 && size_of::<Called>() == 40 && size_of::<kelfhoam::Redumped>() == 240);
};

/// Numbers up to 30 are refusals of a load: 21 is a fault in the packed events themselves.
fn tell_load(number: u32, told: &Loaded) {
    if number == 21 {
        eprintln!("refused 21 (fault {}) at byte {}", told.fault, told.place);
    } else {
        eprintln!("refused {number} at byte {}", told.at.index);
    }
}

fn tell_write(number: u32, told: &Called) {
    eprintln!("refused {number} at node {}", told.node);
}

/// Lists every document; whether none was refused.
fn list(input: &[u8], tables: &mut Tables) -> bool {
    let kinds = ["nothing", "scalar", "sequence", "mapping"];
    for skip in 0.. {
        let (answer, told) = kelfhoam::load(input, skip, tables);
        match answer {
            Answer::Loaded => {
                let root = tables.nodes[0];
                eprintln!(
                    "document {}: {} nodes, {} links, {} bytes of text, {} anchors; bytes {} to {}; root: {} <{}> of {} links",
                    skip + 1, told.nodes, told.links, told.text, told.anchors, told.start.index, told.end.index,
                    kinds[root.kind as usize], String::from_utf8_lossy(tables.tag(&root)), tables.links_of(&root).len(),
                );
            }
            Answer::Ended => break,
            Answer::Refused(number) => {
                tell_load(number, &told);
                return false;
            }
        }
    }
    true
}

/// Writes every document again; whether none was refused.
fn redump(input: &[u8], tables: &mut Tables) -> bool {
    // An event has at least 9 bytes, and is written with at most 27 more: a default tag of 21 bytes and an anchor of 6.
    let mut out = vec![0; 4 * input.len() + 1];
    let (done, told) = kelfhoam::redump(input, tables, &mut Plan::full(), &mut out);
    if let Err(number) = done {
        if number <= 30 {
            tell_load(number, &told.load);
        } else {
            tell_write(number, &told.write);
        }
        return false;
    }
    eprintln!("{} documents, {} nodes, {} links, {} events, {} bytes", told.documents, told.nodes, told.links, told.events, told.bytes);
    std::io::stdout().write_all(&out[..told.bytes as usize]).is_ok()
}

fn main() -> ExitCode {
    let names: Vec<_> = std::env::args_os().skip(1).collect();
    let [name] = &names[..] else {
        eprintln!("usage: example FILE");
        return ExitCode::from(2);
    };
    let Ok(input) = std::fs::read(name) else {
        eprintln!("{}: could not be read", name.to_string_lossy());
        return ExitCode::from(2);
    };
    let mut tables = Tables::full();
    if list(&input, &mut tables) && redump(&input, &mut tables) { ExitCode::SUCCESS } else { ExitCode::FAILURE }
}
