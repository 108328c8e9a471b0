//! The original behind calls that cannot harm the driver: a failed assertion becomes an answer, and documents are looked at as slices.

use crate::arena;
use crate::kelfhoam::Mark;
use original as yaml;
use std::ffi::CStr;
use std::marker::PhantomData;
use std::mem::MaybeUninit;
use std::panic::{AssertUnwindSafe, catch_unwind};
use std::{ptr, slice};

/// The file and line of an assertion that failed, like `loader.rs:191`.
pub type Assertion = String;

/// Makes failed assertions of the original quiet. To be called once, first of all.
pub fn prepare() {
    arena::reserve();
    let usual = std::panic::take_hook();
    std::panic::set_hook(Box::new(move |info| {
        if !arena::is_inside() {
            usual(info)
        }
    }));
}

fn guarded<T>(call: impl FnOnce() -> T) -> Result<T, Assertion> {
    arena::set_inside(true);
    let answer = catch_unwind(AssertUnwindSafe(call));
    arena::set_inside(false);
    answer.map_err(|payload| {
        let message = payload.downcast_ref::<String>().map(String::as_str).unwrap_or("another panic");
        let place = message.split(": Assertion").next().unwrap_or(message);
        place.rsplit('/').next().unwrap_or(place).to_string()
    })
}

fn mark(mark: &yaml::yaml_mark_t) -> Mark {
    Mark { index: mark.index, line: mark.line, column: mark.column }
}

/// A parser over a list of packed events.
pub struct Parser<'a> {
    parser: Box<MaybeUninit<yaml::yaml_parser_t>>,
    input: PhantomData<&'a [u8]>,
}

/// What came of a load.
pub enum Load {
    Loaded(Document),
    Failed(Failure),
    Asserted(Assertion),
}

/// What the parser tells of a failure; without a problem where it only had no event.
#[derive(Clone, PartialEq, Eq, Debug)]
pub struct Failure {
    pub error: yaml::yaml_error_type_t,
    pub problem: Option<&'static str>,
    pub at: Mark,
    pub context: Option<&'static str>,
    pub first: Mark,
}

impl Failure {
    /// The parser had no event to give.
    pub fn is_silent(&self) -> bool {
        self.error == yaml::YAML_NO_ERROR && self.problem.is_none() && self.context.is_none()
    }

    pub fn is_undefined_alias(&self) -> bool {
        self.error == yaml::YAML_COMPOSER_ERROR && self.problem == Some("found undefined alias") && self.context.is_none()
    }

    pub fn is_duplicate_anchor(&self) -> bool {
        self.error == yaml::YAML_COMPOSER_ERROR && self.problem == Some("second occurrence") && self.context == Some("found duplicate anchor; first occurrence")
    }
}

impl<'a> Parser<'a> {
    pub fn new(input: &'a [u8]) -> Parser<'a> {
        let mut parser = Box::new(MaybeUninit::uninit());
        guarded(|| unsafe {
            assert!(yaml::yaml_parser_initialize(parser.as_mut_ptr()).ok);
            yaml::yaml_parser_set_input_string(parser.as_mut_ptr(), input.as_ptr(), input.len() as u64);
        })
        .expect("a parser");
        Parser { parser, input: PhantomData }
    }

    pub fn load(&mut self) -> Load {
        let mut document = MaybeUninit::uninit();
        match guarded(|| unsafe { yaml::yaml_parser_load(self.parser.as_mut_ptr(), document.as_mut_ptr()).ok }) {
            Ok(true) => Load::Loaded(Document(unsafe { document.assume_init() })),
            Ok(false) => Load::Failed(self.failure()),
            Err(assertion) => Load::Asserted(assertion),
        }
    }

    fn failure(&self) -> Failure {
        let parser = unsafe { self.parser.assume_init_ref() };
        let said = |text: *const i8| unsafe { (!text.is_null()).then(|| CStr::from_ptr(text.cast()).to_str().expect("ASCII")) };
        Failure {
            error: parser.error,
            problem: said(parser.problem),
            at: mark(&parser.problem_mark),
            context: said(parser.context),
            first: mark(&parser.context_mark),
        }
    }

    /// Where the next event begins.
    pub fn next_place(&self) -> u64 {
        unsafe { yaml::next_place(self.parser.as_ptr()) }
    }

    /// Where the latest event that the original took begins.
    pub fn latest_place(&self) -> u64 {
        unsafe { yaml::latest_place(self.parser.as_ptr()) }
    }

    pub fn stream_ended(&self) -> bool {
        unsafe { yaml::stream_ended(self.parser.as_ptr()) }
    }
}

/// A document of the original's. Its memory lies in the arena.
pub struct Document(yaml::yaml_document_t);

/// A node of such a document; the links of a mapping are key, value, key, value.
#[derive(Clone, Copy, PartialEq, Eq, Debug)]
pub struct Node<'a> {
    pub kind: u8,
    pub style: u8,
    pub tag: &'a [u8],
    pub value: &'a [u8],
    pub links: &'a [i32],
    pub start: Mark,
    pub end: Mark,
}

impl Document {
    /// A document without nodes, made by the original's own call.
    pub fn new(start_implicit: bool, end_implicit: bool) -> Document {
        let mut document = MaybeUninit::uninit();
        guarded(|| unsafe {
            let none = ptr::null_mut();
            assert!(yaml::yaml_document_initialize(document.as_mut_ptr(), ptr::null_mut(), none, none, start_implicit, end_implicit).ok);
            Document(document.assume_init())
        })
        .expect("a document")
    }

    /// Adds a node by the original's own call; `tag` ends with a zero byte, none stands for the default. Gives the node's number, 0 where it is refused.
    pub fn add(&mut self, kind: u8, style: u8, tag: Option<&CStr>, value: &[u8]) -> i32 {
        let tag = tag.map_or(ptr::null(), |tag| tag.as_ptr().cast());
        let document = &mut self.0;
        guarded(|| unsafe {
            match kind {
                1 => {
                    let styles = [
                        yaml::YAML_ANY_SCALAR_STYLE,
                        yaml::YAML_PLAIN_SCALAR_STYLE,
                        yaml::YAML_SINGLE_QUOTED_SCALAR_STYLE,
                        yaml::YAML_DOUBLE_QUOTED_SCALAR_STYLE,
                        yaml::YAML_LITERAL_SCALAR_STYLE,
                        yaml::YAML_FOLDED_SCALAR_STYLE,
                    ];
                    yaml::yaml_document_add_scalar(document, tag, value.as_ptr(), value.len() as i32, styles[style as usize])
                }
                2 => {
                    let styles = [yaml::YAML_ANY_SEQUENCE_STYLE, yaml::YAML_BLOCK_SEQUENCE_STYLE, yaml::YAML_FLOW_SEQUENCE_STYLE];
                    yaml::yaml_document_add_sequence(document, tag, styles[style as usize])
                }
                _ => {
                    let styles = [yaml::YAML_ANY_MAPPING_STYLE, yaml::YAML_BLOCK_MAPPING_STYLE, yaml::YAML_FLOW_MAPPING_STYLE];
                    yaml::yaml_document_add_mapping(document, tag, styles[style as usize])
                }
            }
        })
        .expect("a node")
    }

    /// Appends links to a collection by the original's own calls, pair by pair for a mapping.
    pub fn append(&mut self, kind: u8, node: i32, links: &[u32]) {
        let document = &mut self.0;
        guarded(|| unsafe {
            if kind == 2 {
                for &item in links {
                    assert!(yaml::yaml_document_append_sequence_item(document, node, item as i32).ok);
                }
            } else {
                for pair in links.chunks(2) {
                    assert!(yaml::yaml_document_append_mapping_pair(document, node, pair[0] as i32, pair[1] as i32).ok);
                }
            }
        })
        .expect("links")
    }

    pub fn start_implicit(&self) -> bool {
        self.0.start_implicit
    }

    pub fn end_implicit(&self) -> bool {
        self.0.end_implicit
    }

    pub fn start(&self) -> Mark {
        mark(&self.0.start_mark)
    }

    pub fn end(&self) -> Mark {
        mark(&self.0.end_mark)
    }

    pub fn nodes(&self) -> impl ExactSizeIterator<Item = Node<'_>> {
        unsafe { stack(&self.0.nodes) }.iter().map(|node| unsafe {
            let (style, value, links) = match node.type_ {
                yaml::YAML_SCALAR_NODE => {
                    let scalar = &node.data.scalar;
                    (scalar.style as u8, slice::from_raw_parts(scalar.value, scalar.length as usize), &[][..])
                }
                yaml::YAML_SEQUENCE_NODE => (node.data.sequence.style as u8, &[][..], stack(&node.data.sequence.items)),
                _ => {
                    let pairs = stack(&node.data.mapping.pairs);
                    (node.data.mapping.style as u8, &[][..], slice::from_raw_parts(pairs.as_ptr().cast(), 2 * pairs.len()))
                }
            };
            Node {
                kind: node.type_ as u8,
                style,
                tag: CStr::from_ptr(node.tag.cast()).to_bytes(),
                value,
                links,
                start: mark(&node.start_mark),
                end: mark(&node.end_mark),
            }
        })
    }
}

unsafe fn stack<T>(stack: &yaml::yaml_stack_t<T>) -> &[T] {
    unsafe { slice::from_raw_parts(stack.start, stack.top.offset_from(stack.start) as usize) }
}

/// An emitter into a sink of so much space as `out` has.
pub struct Emitter<'a> {
    emitter: Box<MaybeUninit<yaml::yaml_emitter_t>>,
    sink: Box<yaml::Sink>,
    out: PhantomData<&'a mut [u8]>,
}

impl<'a> Emitter<'a> {
    pub fn new(out: &'a mut [u8]) -> Emitter<'a> {
        unsafe fn unused(_: *mut std::ffi::c_void, _: *mut u8, _: u64) -> i32 {
            0
        }
        let mut emitter = Box::new(MaybeUninit::uninit());
        let mut sink = Box::new(yaml::Sink { out: out.as_mut_ptr(), space: out.len(), used: 0, events: 0, refused: None, null_anchor: false, strange: false });
        guarded(|| unsafe {
            assert!(yaml::yaml_emitter_initialize(emitter.as_mut_ptr()).ok);
            yaml::yaml_emitter_set_output(emitter.as_mut_ptr(), unused, ptr::from_mut(&mut *sink).cast());
        })
        .expect("an emitter");
        Emitter { emitter, sink, out: PhantomData }
    }

    /// Each call tells whether it succeeded.
    pub fn open(&mut self) -> Result<bool, Assertion> {
        guarded(|| unsafe { yaml::yaml_emitter_open(self.emitter.as_mut_ptr()).ok })
    }

    pub fn dump(&mut self, mut document: Document) -> Result<bool, Assertion> {
        guarded(|| unsafe { yaml::yaml_emitter_dump(self.emitter.as_mut_ptr(), &mut document.0).ok })
    }

    pub fn close(&mut self) -> Result<bool, Assertion> {
        guarded(|| unsafe { yaml::yaml_emitter_close(self.emitter.as_mut_ptr()).ok })
    }

    /// The packed events taken so far.
    pub fn taken(&self) -> &[u8] {
        unsafe { slice::from_raw_parts(self.sink.out, self.sink.used) }
    }

    pub fn events(&self) -> u64 {
        self.sink.events
    }

    pub fn space_left(&self) -> u64 {
        (self.sink.space - self.sink.used) as u64
    }

    /// The size of the latest event that did not fit.
    pub fn refused(&self) -> Option<u64> {
        self.sink.refused.map(|size| size as u64)
    }

    pub fn handed_null_anchor(&self) -> bool {
        self.sink.null_anchor
    }

    /// Did an event have a mark other than zero, or a directive?
    pub fn was_strange(&self) -> bool {
        self.sink.strange
    }
}
