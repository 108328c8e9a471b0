//! Stands in for the original's parser: each call takes the next packed event (docs/EVENTS.md) from the input and hands it over as the original's
//! parser does, its texts allocated and ended by a zero byte. It asks what a reader of packed events asks; a no is a parser error.
use crate::api::yaml_malloc;
use crate::success::{Success, FAIL, OK};
use crate::yaml::*;
use core::{mem, ptr, slice};

/// Makes a parser that stands at the start of some packed events.
pub unsafe fn parser_over(parser: *mut yaml_parser_t, input: &[u8]) {
    ptr::write_bytes(parser, 0, 1);
    let range = input.as_ptr_range();
    (*parser).input.string = unnamed_yaml_parser_t_input_string { start: range.start, end: range.end, current: range.start };
}

/// How many nodes a loaded document has.
pub unsafe fn node_count(document: *const yaml_document_t) -> usize {
    (*document).nodes.top.offset_from((*document).nodes.start) as usize
}

fn allowed(kind: u8, style: u8, flags: u8, anchor: usize, tag: usize, value: usize) -> bool {
    let (styles, all_flags, anchors, tags, values) = match kind {
        1 => (3, 0, 0, 0, 0),
        2 | 8 | 10 => (0, 0, 0, 0, 0),
        3 | 4 => (0, 1, 0, 0, 0),
        5 => (0, 0, 64, 0, 0),
        6 => (5, 3, 64, 256, 4096),
        7 | 9 => (2, 1, 64, 256, 0),
        _ => return false,
    };
    style <= styles && flags <= all_flags && anchor <= anchors && tag <= tags && value <= values && (kind != 5 || anchor > 0)
}

unsafe fn owned(text: &[u8]) -> *mut yaml_char_t {
    let memory = yaml_malloc(text.len() as u64 + 1).cast::<yaml_char_t>();
    ptr::copy_nonoverlapping(text.as_ptr(), memory, text.len());
    *memory.add(text.len()) = 0;
    memory
}

unsafe fn owned_or_null(text: &[u8]) -> *mut yaml_char_t {
    if text.is_empty() { ptr::null_mut() } else { owned(text) }
}

unsafe fn fault(parser: *mut yaml_parser_t) -> Success {
    (*parser).error = yaml_error_type_t::YAML_PARSER_ERROR;
    FAIL
}

pub unsafe fn yaml_parser_parse(parser: *mut yaml_parser_t, event: *mut yaml_event_t) -> Success {
    let place = (*parser).input.string.current;
    let rest = slice::from_raw_parts(place, (*parser).input.string.end.offset_from(place) as usize);
    let [kind, style, flags, a1, a0, t1, t0, v1, v0, texts @ ..] = rest else {
        return fault(parser);
    };
    let (kind, style, flags) = (*kind, *style, *flags);
    let two = |high: &u8, low: &u8| usize::from(u16::from_be_bytes([*high, *low]));
    let (a, t, v) = (two(a1, a0), two(t1, t0), two(v1, v0));
    if !allowed(kind, style, flags, a, t, v) || texts.len() < a + t + v {
        return fault(parser);
    }
    let (anchor, texts) = texts.split_at(a);
    let (tag, texts) = texts.split_at(t);
    let value = &texts[..v];
    if anchor.contains(&0) || tag.contains(&0) {
        return fault(parser);
    }
    let size = 9 + a + t + v;
    let start_mark = (*parser).mark;
    let end_mark = yaml_mark_t { index: start_mark.index + size as u64, line: start_mark.line + 1, column: 0 };
    (*parser).mark = end_mark;
    (*parser).input.string.current = place.add(size);
    // `allowed` has kept kind and style inside their enumerations
    let type_ = mem::transmute::<u32, yaml_event_type_t>(u32::from(kind));
    let data = match type_ {
        YAML_STREAM_START_EVENT => {
            (*parser).stream_start_produced = true;
            let encoding = mem::transmute::<u32, yaml_encoding_t>(u32::from(style));
            unnamed_yaml_event_t_data { stream_start: unnamed_yaml_event_t_data_stream_start { encoding } }
        }
        YAML_DOCUMENT_START_EVENT => {
            let tag_directives = unnamed_yaml_event_t_data_document_start_tag_directives { start: ptr::null_mut(), end: ptr::null_mut() };
            let version_directive = ptr::null_mut();
            let document_start = unnamed_yaml_event_t_data_document_start { version_directive, tag_directives, implicit: flags == 1 };
            unnamed_yaml_event_t_data { document_start }
        }
        YAML_ALIAS_EVENT => unnamed_yaml_event_t_data { alias: unnamed_yaml_event_t_data_alias { anchor: owned(anchor) } },
        YAML_SCALAR_EVENT => unnamed_yaml_event_t_data {
            scalar: unnamed_yaml_event_t_data_scalar {
                anchor: owned_or_null(anchor),
                tag: owned_or_null(tag),
                value: owned(value),
                length: v as u64,
                plain_implicit: flags & 1 != 0,
                quoted_implicit: flags & 2 != 0,
                style: mem::transmute::<u32, yaml_scalar_style_t>(u32::from(style)),
            },
        },
        YAML_SEQUENCE_START_EVENT => unnamed_yaml_event_t_data {
            sequence_start: unnamed_yaml_event_t_data_sequence_start {
                anchor: owned_or_null(anchor),
                tag: owned_or_null(tag),
                implicit: flags == 1,
                style: mem::transmute::<u32, yaml_sequence_style_t>(u32::from(style)),
            },
        },
        YAML_MAPPING_START_EVENT => unnamed_yaml_event_t_data {
            mapping_start: unnamed_yaml_event_t_data_mapping_start {
                anchor: owned_or_null(anchor),
                tag: owned_or_null(tag),
                implicit: flags == 1,
                style: mem::transmute::<u32, yaml_mapping_style_t>(u32::from(style)),
            },
        },
        _ => {
            (*parser).stream_end_produced |= type_ == YAML_STREAM_END_EVENT;
            unnamed_yaml_event_t_data { document_end: unnamed_yaml_event_t_data_document_end { implicit: flags == 1 } }
        }
    };
    event.write(yaml_event_t { type_, data, start_mark, end_mark });
    OK
}
