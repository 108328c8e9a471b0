//! Packed events as docs/EVENTS.md tells them, written anew for this comparison: reading with its four questions, writing, and the line form.
//! A crate of its own, since the stand-in parser and emitter, which live in the original's crate, and the driver all need it.

pub const STREAM_START: u8 = 1;
pub const STREAM_END: u8 = 2;
pub const DOCUMENT_START: u8 = 3;
pub const DOCUMENT_END: u8 = 4;
pub const ALIAS: u8 = 5;
pub const SCALAR: u8 = 6;
pub const SEQUENCE_START: u8 = 7;
pub const SEQUENCE_END: u8 = 8;
pub const MAPPING_START: u8 = 9;
pub const MAPPING_END: u8 = 10;

/// The bytes before an event's texts.
pub const HEAD: usize = 9;

#[derive(Clone, Copy, PartialEq, Eq, Debug, Default)]
pub struct Event<'a> {
    pub kind: u8,
    pub style: u8,
    pub flags: u8,
    pub anchor: &'a [u8],
    pub tag: &'a [u8],
    pub value: &'a [u8],
}

/// Does some allowed event have this kind, style, flags, and texts of these lengths?
fn head_is_allowed(kind: u8, style: u8, flags: u8, anchor: usize, tag: usize, value: usize) -> bool {
    let bare = anchor == 0 && tag == 0 && value == 0;
    match kind {
        STREAM_START => style <= 3 && flags == 0 && bare,
        STREAM_END | SEQUENCE_END | MAPPING_END => style == 0 && flags == 0 && bare,
        DOCUMENT_START | DOCUMENT_END => style == 0 && flags <= 1 && bare,
        ALIAS => style == 0 && flags == 0 && (1..=64).contains(&anchor) && tag == 0 && value == 0,
        SCALAR => style <= 5 && flags <= 3 && anchor <= 64 && tag <= 256 && value <= 4096,
        SEQUENCE_START | MAPPING_START => style <= 2 && flags <= 1 && anchor <= 64 && tag <= 256 && value == 0,
        _ => false,
    }
}

/// The event at a place, none at the end of the input, or the number of the fault.
pub fn read(input: &[u8], place: usize) -> Result<Option<Event<'_>>, u64> {
    let rest = &input[place..];
    if rest.is_empty() {
        return Ok(None);
    }
    if rest.len() < HEAD {
        return Err(11);
    }
    let length = |i: usize| rest[i] as usize * 256 + rest[i + 1] as usize;
    let (kind, style, flags) = (rest[0], rest[1], rest[2]);
    let (anchor, tag, value) = (length(3), length(5), length(7));
    if !head_is_allowed(kind, style, flags, anchor, tag, value) {
        return Err(12);
    }
    let texts = &rest[HEAD..];
    if texts.len() < anchor + tag + value {
        return Err(13);
    }
    let (anchor, texts) = texts.split_at(anchor);
    let (tag, texts) = texts.split_at(tag);
    if anchor.contains(&0) || tag.contains(&0) {
        return Err(14);
    }
    Ok(Some(Event { kind, style, flags, anchor, tag, value: &texts[..value] }))
}

/// The events of an input up to its end or a fault, each with the place where it begins.
pub fn events(input: &[u8]) -> impl Iterator<Item = (usize, Event<'_>)> {
    let mut place = 0;
    std::iter::from_fn(move || {
        let event = read(input, place).ok()??;
        let at = place;
        place += event.size();
        Some((at, event))
    })
}

impl Event<'_> {
    /// How many bytes the packed event has.
    pub fn size(&self) -> usize {
        HEAD + self.anchor.len() + self.tag.len() + self.value.len()
    }

    /// Writes the packed event to the front of `out`, which has space for it.
    pub fn write(&self, out: &mut [u8]) {
        out[..3].copy_from_slice(&[self.kind, self.style, self.flags]);
        let mut at = HEAD;
        for (i, text) in [self.anchor, self.tag, self.value].into_iter().enumerate() {
            out[3 + 2 * i..5 + 2 * i].copy_from_slice(&(text.len() as u16).to_be_bytes());
            out[at..at + text.len()].copy_from_slice(text);
            at += text.len();
        }
    }

    pub fn push(&self, out: &mut Vec<u8>) {
        let at = out.len();
        out.resize(at + self.size(), 0);
        self.write(&mut out[at..]);
    }

    /// The event's line, without the newline.
    pub fn line(&self) -> String {
        const NAMES: [&str; 10] = ["+STR", "-STR", "+DOC", "-DOC", "=ALI", "=VAL", "+SEQ", "-SEQ", "+MAP", "-MAP"];
        let mut line = format!("{} {} {}", NAMES[self.kind as usize - 1], self.style, self.flags);
        if !self.anchor.is_empty() {
            line += &format!(" &{}", escaped(self.anchor));
        }
        if !self.tag.is_empty() {
            line += &format!(" <{}", escaped(self.tag));
        }
        if self.kind == SCALAR {
            line += &format!(" :{}", escaped(self.value));
        }
        line
    }
}

/// A text as lines have it: bytes below 33, above 126, and the backslash as a backslash and two upper-case hexadecimal digits.
pub fn escaped(text: &[u8]) -> String {
    let mut out = String::with_capacity(text.len());
    for &byte in text {
        if (33..=126).contains(&byte) && byte != b'\\' {
            out.push(byte as char);
        } else {
            out += &format!("\\{byte:02X}");
        }
    }
    out
}

pub fn hex(bytes: &[u8]) -> String {
    bytes.iter().map(|b| format!("{b:02x}")).collect()
}

pub fn from_hex(text: &str) -> Option<Vec<u8>> {
    let digits: Option<Vec<u8>> = text.chars().filter(|c| !c.is_whitespace()).map(|c| c.to_digit(16).map(|d| d as u8)).collect();
    let digits = digits?;
    (digits.len() % 2 == 0).then(|| digits.chunks(2).map(|d| d[0] * 16 + d[1]).collect())
}
