//! Stands in for the original's parser: `yaml_parser_parse` takes the next of a list of packed events instead of reading YAML text.
//! The list is the parser's string input; `mark` is where the next event begins and `offset` where the latest one began.

use crate::api::yaml_malloc;
use crate::externs::{memcpy, memset};
use crate::success::{Success, FAIL, OK};
use crate::yaml::yaml_char_t;
use crate::*;
use core::{ptr, slice};
use packed::Event;

const ENCODINGS: [yaml_encoding_t; 4] = [YAML_ANY_ENCODING, YAML_UTF8_ENCODING, YAML_UTF16LE_ENCODING, YAML_UTF16BE_ENCODING];
const SCALARS: [yaml_scalar_style_t; 6] = [
    YAML_ANY_SCALAR_STYLE,
    YAML_PLAIN_SCALAR_STYLE,
    YAML_SINGLE_QUOTED_SCALAR_STYLE,
    YAML_DOUBLE_QUOTED_SCALAR_STYLE,
    YAML_LITERAL_SCALAR_STYLE,
    YAML_FOLDED_SCALAR_STYLE,
];
const SEQUENCES: [yaml_sequence_style_t; 3] = [YAML_ANY_SEQUENCE_STYLE, YAML_BLOCK_SEQUENCE_STYLE, YAML_FLOW_SEQUENCE_STYLE];
const MAPPINGS: [yaml_mapping_style_t; 3] = [YAML_ANY_MAPPING_STYLE, YAML_BLOCK_MAPPING_STYLE, YAML_FLOW_MAPPING_STYLE];

/// Takes the next event. At the end of the list or at a fault it fails, again and again, and sets no error.
pub unsafe fn yaml_parser_parse(parser: *mut yaml_parser_t, event: *mut yaml_event_t) -> Success {
    memset(event.cast(), 0, size_of::<yaml_event_t>() as u64);
    let Ok(Some(next)) = packed::read(input(parser), (*parser).mark.index as usize) else {
        return FAIL;
    };
    fill(&next, event);
    (*parser).stream_start_produced |= next.kind == packed::STREAM_START;
    (*parser).stream_end_produced |= next.kind == packed::STREAM_END;
    (*parser).offset = (*parser).mark.index;
    (*event).start_mark = (*parser).mark;
    (*parser).mark.index += next.size() as u64;
    (*event).end_mark = (*parser).mark;
    (*parser).mark.line += 1;
    OK
}

unsafe fn fill(next: &Event<'_>, event: *mut yaml_event_t) {
    let style = next.style as usize;
    let implicit = next.flags & 1 != 0;
    let data = &mut (*event).data;
    (*event).type_ = match next.kind {
        packed::STREAM_START => {
            data.stream_start.encoding = ENCODINGS[style];
            YAML_STREAM_START_EVENT
        }
        packed::STREAM_END => YAML_STREAM_END_EVENT,
        packed::DOCUMENT_START => {
            data.document_start.implicit = implicit;
            YAML_DOCUMENT_START_EVENT
        }
        packed::DOCUMENT_END => {
            data.document_end.implicit = implicit;
            YAML_DOCUMENT_END_EVENT
        }
        packed::ALIAS => {
            data.alias.anchor = present(next.anchor);
            YAML_ALIAS_EVENT
        }
        packed::SCALAR => {
            data.scalar.anchor = present(next.anchor);
            data.scalar.tag = present(next.tag);
            data.scalar.value = copied(next.value);
            data.scalar.length = next.value.len() as u64;
            data.scalar.plain_implicit = implicit;
            data.scalar.quoted_implicit = next.flags & 2 != 0;
            data.scalar.style = SCALARS[style];
            YAML_SCALAR_EVENT
        }
        packed::SEQUENCE_START => {
            data.sequence_start.anchor = present(next.anchor);
            data.sequence_start.tag = present(next.tag);
            data.sequence_start.implicit = implicit;
            data.sequence_start.style = SEQUENCES[style];
            YAML_SEQUENCE_START_EVENT
        }
        packed::SEQUENCE_END => YAML_SEQUENCE_END_EVENT,
        packed::MAPPING_START => {
            data.mapping_start.anchor = present(next.anchor);
            data.mapping_start.tag = present(next.tag);
            data.mapping_start.implicit = implicit;
            data.mapping_start.style = MAPPINGS[style];
            YAML_MAPPING_START_EVENT
        }
        _ => YAML_MAPPING_END_EVENT,
    };
}

/// An anchor or a tag: absent where it has no bytes.
unsafe fn present(text: &[u8]) -> *mut yaml_char_t {
    if text.is_empty() {
        ptr::null_mut()
    } else {
        copied(text)
    }
}

unsafe fn copied(text: &[u8]) -> *mut yaml_char_t {
    let copy = yaml_malloc(text.len() as u64 + 1).cast::<yaml_char_t>();
    memcpy(copy.cast(), text.as_ptr().cast(), text.len() as u64);
    *copy.add(text.len()) = 0;
    copy
}

unsafe fn input<'a>(parser: *const yaml_parser_t) -> &'a [u8] {
    let string = (*parser).input.string;
    slice::from_raw_parts(string.start, string.end as usize - string.start as usize)
}

/// Where the next event begins.
pub unsafe fn next_place(parser: *const yaml_parser_t) -> u64 {
    (*parser).mark.index
}

/// Where the latest event began.
pub unsafe fn latest_place(parser: *const yaml_parser_t) -> u64 {
    (*parser).offset
}

/// Was the stream's end taken?
pub unsafe fn stream_ended(parser: *const yaml_parser_t) -> bool {
    (*parser).stream_end_produced
}
