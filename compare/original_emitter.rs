//! Stands in for the original's emitter: `yaml_emitter_emit` packs each event into the sink that the emitter's write handler data points to,
//! instead of writing YAML text.

use crate::externs::strlen;
use crate::success::{Success, FAIL, OK};
use crate::*;
use core::slice;
use packed::Event;

/// What was emitted. Like the packed sink of docs/EVENTS.md it refuses an event that is larger than the space left.
pub struct Sink {
    pub out: *mut u8,
    pub space: usize,
    pub used: usize,
    pub events: u64,
    /// the size of the latest event that did not fit
    pub refused: Option<usize>,
    /// an alias without anchor was handed on; it cannot be packed and is refused
    pub null_anchor: bool,
    /// an event had a mark other than zero, or a directive
    pub strange: bool,
}

/// Takes an event, and frees it in any case, as the original does.
pub unsafe fn yaml_emitter_emit(emitter: *mut yaml_emitter_t, event: *mut yaml_event_t) -> Success {
    let sink = &mut *(*emitter).write_handler_data.cast::<Sink>();
    let taken = sink.take(event);
    yaml_event_delete(event);
    if taken {
        OK
    } else {
        FAIL
    }
}

impl Sink {
    unsafe fn take(&mut self, event: *const yaml_event_t) -> bool {
        let event = &*event;
        self.strange |= marked(&event.start_mark) || marked(&event.end_mark) || has_directives(event);
        if event.type_ == YAML_ALIAS_EVENT && event.data.alias.anchor.is_null() {
            self.null_anchor = true;
            return false;
        }
        let event = plain(event);
        let size = event.size();
        if size > self.space - self.used {
            self.refused = Some(size);
            return false;
        }
        event.write(slice::from_raw_parts_mut(self.out.add(self.used), size));
        self.used += size;
        self.events += 1;
        true
    }
}

fn marked(mark: &yaml_mark_t) -> bool {
    mark.index != 0 || mark.line != 0 || mark.column != 0
}

unsafe fn has_directives(event: &yaml_event_t) -> bool {
    event.type_ == YAML_DOCUMENT_START_EVENT && {
        let start = &event.data.document_start;
        !start.version_directive.is_null() || start.tag_directives.start != start.tag_directives.end
    }
}

unsafe fn plain(event: &yaml_event_t) -> Event<'_> {
    let kind = event.type_ as u8;
    let data = &event.data;
    match event.type_ {
        YAML_STREAM_START_EVENT => Event { kind, style: data.stream_start.encoding as u8, ..Event::default() },
        YAML_DOCUMENT_START_EVENT => Event { kind, flags: data.document_start.implicit as u8, ..Event::default() },
        YAML_DOCUMENT_END_EVENT => Event { kind, flags: data.document_end.implicit as u8, ..Event::default() },
        YAML_ALIAS_EVENT => Event { kind, anchor: text(data.alias.anchor), ..Event::default() },
        YAML_SCALAR_EVENT => Event {
            kind,
            style: data.scalar.style as u8,
            flags: data.scalar.plain_implicit as u8 + 2 * data.scalar.quoted_implicit as u8,
            anchor: text(data.scalar.anchor),
            tag: text(data.scalar.tag),
            value: slice::from_raw_parts(data.scalar.value, data.scalar.length as usize),
        },
        YAML_SEQUENCE_START_EVENT => Event {
            kind,
            style: data.sequence_start.style as u8,
            flags: data.sequence_start.implicit as u8,
            anchor: text(data.sequence_start.anchor),
            tag: text(data.sequence_start.tag),
            ..Event::default()
        },
        YAML_MAPPING_START_EVENT => Event {
            kind,
            style: data.mapping_start.style as u8,
            flags: data.mapping_start.implicit as u8,
            anchor: text(data.mapping_start.anchor),
            tag: text(data.mapping_start.tag),
            ..Event::default()
        },
        _ => Event { kind, ..Event::default() },
    }
}

unsafe fn text<'a>(start: *const u8) -> &'a [u8] {
    if start.is_null() {
        &[]
    } else {
        slice::from_raw_parts(start, strlen(start.cast()) as usize)
    }
}
