
// The rest of lib.rs, without the original's scanner, reader and writer, and with the parser and the emitter that stand beside this file.
mod api;
mod dumper;
mod emitter;
mod loader;
mod ops;
mod parser;
mod success;
mod yaml;

pub use crate::api::*;
pub use crate::dumper::{yaml_emitter_close, yaml_emitter_dump, yaml_emitter_open};
pub use crate::emitter::{emitter_over, yaml_emitter_emit};
pub use crate::loader::yaml_parser_load;
pub use crate::parser::{node_count, parser_over, yaml_parser_parse};
pub use crate::yaml::*;
pub use crate::yaml::{yaml_break_t::*, yaml_error_type_t::*, yaml_mapping_style_t::*, yaml_scalar_style_t::*, yaml_sequence_style_t::*, yaml_token_type_t::*};
