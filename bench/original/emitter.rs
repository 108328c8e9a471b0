//! Stands in for the original's emitter: each call writes the event packed (docs/EVENTS.md) behind those before it, if it is allowed and fits, and
//! deletes it as the original's emitter does.
use crate::success::{Success, FAIL, OK};
use crate::yaml::*;
use crate::yaml_event_delete;
use core::{ffi::CStr, ptr};

/// Makes an emitter over a slice; `used` counts the bytes that hold events.
pub unsafe fn emitter_over(emitter: *mut yaml_emitter_t, out: &mut [u8], used: &mut u64) {
    ptr::write_bytes(emitter, 0, 1);
    *used = 0;
    (*emitter).output.string = unnamed_yaml_emitter_t_output_string { buffer: out.as_mut_ptr(), size: out.len() as u64, size_written: used };
}

unsafe fn text<'a>(start: *const yaml_char_t) -> &'a [u8] {
    if start.is_null() { &[] } else { CStr::from_ptr(start.cast()).to_bytes() }
}

unsafe fn put(place: *mut u8, bytes: &[u8]) -> *mut u8 {
    ptr::copy_nonoverlapping(bytes.as_ptr(), place, bytes.len());
    place.add(bytes.len())
}

unsafe fn write(emitter: *mut yaml_emitter_t, event: &yaml_event_t) -> Success {
    let data = &event.data;
    let none: &[u8] = &[];
    let (style, flags, anchor, tag, value) = match event.type_ {
        YAML_STREAM_START_EVENT => (data.stream_start.encoding as u8, 0, none, none, none),
        YAML_DOCUMENT_START_EVENT => (0, u8::from(data.document_start.implicit), none, none, none),
        YAML_DOCUMENT_END_EVENT => (0, u8::from(data.document_end.implicit), none, none, none),
        YAML_ALIAS_EVENT => (0, 0, text(data.alias.anchor), none, none),
        YAML_SCALAR_EVENT => {
            let scalar = &data.scalar;
            let value = core::slice::from_raw_parts(scalar.value, scalar.length as usize);
            let flags = u8::from(scalar.plain_implicit) + 2 * u8::from(scalar.quoted_implicit);
            (scalar.style as u8, flags, text(scalar.anchor), text(scalar.tag), value)
        }
        YAML_SEQUENCE_START_EVENT => {
            let sequence = &data.sequence_start;
            (sequence.style as u8, u8::from(sequence.implicit), text(sequence.anchor), text(sequence.tag), none)
        }
        YAML_MAPPING_START_EVENT => {
            let mapping = &data.mapping_start;
            (mapping.style as u8, u8::from(mapping.implicit), text(mapping.anchor), text(mapping.tag), none)
        }
        _ => (0, 0, none, none, none),
    };
    let alone = event.type_ == YAML_ALIAS_EVENT && anchor.is_empty();
    if alone || anchor.len() > 64 || tag.len() > 256 || value.len() > 4096 {
        return FAIL;
    }
    let output = &(*emitter).output.string;
    let size = 9 + anchor.len() + tag.len() + value.len();
    if size as u64 > output.size - *output.size_written {
        return FAIL;
    }
    let [a1, a0] = (anchor.len() as u16).to_be_bytes();
    let [t1, t0] = (tag.len() as u16).to_be_bytes();
    let [v1, v0] = (value.len() as u16).to_be_bytes();
    let place = output.buffer.add(*output.size_written as usize);
    let place = put(place, &[event.type_ as u8, style, flags, a1, a0, t1, t0, v1, v0]);
    let place = put(place, anchor);
    let place = put(place, tag);
    put(place, value);
    *output.size_written += size as u64;
    OK
}

pub unsafe fn yaml_emitter_emit(emitter: *mut yaml_emitter_t, event: *mut yaml_event_t) -> Success {
    let written = write(emitter, &*event);
    yaml_event_delete(event);
    written
}
