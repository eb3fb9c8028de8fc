//! The functions of `order.h`, as C has them.
use std::ffi::c_void;
use std::ptr;

/// The version of the interface that is declared here.
// begin: of a type
pub const VERSION: u32 = 4;
// end: of a type
// begin: of a schema
pub const VERSION: u32 = 1;
// end: of a schema

pub const VALID: u8 = 0;
pub const FAULTS: u8 = 1;
pub const NO_JSON: u8 = 2;
pub const MEMORY: u8 = 3;
/// Of this crate: a value that is none of the caller's type.
pub const MISFIT: u8 = 255;

/// The kinds of a node.
pub const NULL: u8 = 0;
pub const FALSE: u8 = 1;
pub const TRUE: u8 = 2;
pub const WHOLE: u8 = 3;
pub const NEGATIVE: u8 = 4;
pub const NUMBER: u8 = 5;
pub const TEXT: u8 = 6;
pub const LIST: u8 = 7;
pub const OBJECT: u8 = 8;

/// `order_node`.
#[repr(C)]
#[derive(Clone, Copy, Debug)]
pub struct Node {
    pub kind: u8,
    pub in_texts: bool,
    pub len: u32,
    pub value: u64,
}

/// Where a fault is in a body: of an unknown or a repeated member its name, and else its value. A byte
/// order mark is not counted.
#[repr(C)]
#[derive(Clone, Copy, Debug, PartialEq, Eq, PartialOrd, Ord, Hash)]
pub struct Place {
    /// The line, from 1 on.
    pub line: u64,
    /// The column, in characters from 1 on.
    pub column: u64,
}

impl Place {
    pub(crate) const NONE: Place = Place { line: 0, column: 0 };
}

impl Node {
    pub const NULL: Node = Node {
        kind: NULL,
        in_texts: false,
        len: 0,
        value: 0,
    };
}

/// `order_checker`.
#[repr(C)]
pub struct Checker {
    room: *mut c_void,
    has_room: bool,
    // begin: of a schema
    schema_room: *mut c_void,
    has_schema_room: bool,
    // end: of a schema
}

impl Checker {
    /// `ORDER_CHECKER_EMPTY`.
    pub const EMPTY: Checker = Checker {
        room: ptr::null_mut(),
        has_room: false,
        // begin: of a schema
        schema_room: ptr::null_mut(),
        has_schema_room: false,
        // end: of a schema
    };
}

/// `order_check_with` and `order_list_with`.
pub type Call = unsafe extern "C" fn(
    checker: *mut Checker,
    // begin: of a schema
    schema: *const u8,
    schema_len: usize,
    // end: of a schema
    body: *const u8,
    body_len: usize,
    most: usize,
    language: *const u8,
    language_len: usize,
    out: *mut u8,
    out_len: usize,
    len: *mut usize,
) -> u8;

unsafe extern "C" {
    pub safe fn order_version() -> u32;

    pub fn order_is_valid(
        // begin: of a schema
        schema: *const u8,
        schema_len: usize,
        // end: of a schema
        body: *const u8,
        body_len: usize,
    ) -> u8;

    pub fn order_reserve(checker: *mut Checker, body_len: u32) -> u8;

    pub fn order_check_with(
        checker: *mut Checker,
        // begin: of a schema
        schema: *const u8,
        schema_len: usize,
        // end: of a schema
        body: *const u8,
        body_len: usize,
        most: usize,
        language: *const u8,
        language_len: usize,
        out: *mut u8,
        out_len: usize,
        len: *mut usize,
    ) -> u8;

    pub fn order_list_with(
        checker: *mut Checker,
        // begin: of a schema
        schema: *const u8,
        schema_len: usize,
        // end: of a schema
        body: *const u8,
        body_len: usize,
        most: usize,
        language: *const u8,
        language_len: usize,
        out: *mut u8,
        out_len: usize,
        len: *mut usize,
    ) -> u8;

    pub fn order_value_with(
        checker: *mut Checker,
        // begin: of a schema
        schema: *const u8,
        schema_len: usize,
        // end: of a schema
        body: *const u8,
        body_len: usize,
        nodes: *mut Node,
        nodes_len: usize,
        nodes_used: *mut usize,
        texts: *mut u8,
        texts_len: usize,
        texts_used: *mut usize,
    ) -> u8;

    pub fn order_faults_with(
        checker: *mut Checker,
        // begin: of a schema
        schema: *const u8,
        schema_len: usize,
        // end: of a schema
        body: *const u8,
        body_len: usize,
        most: usize,
        language: *const u8,
        language_len: usize,
        out: *mut u8,
        out_len: usize,
        len: *mut usize,
        nodes: *mut Node,
        nodes_len: usize,
        nodes_used: *mut usize,
        texts: *mut u8,
        texts_len: usize,
        texts_used: *mut usize,
        places: *mut Place,
        places_len: usize,
        places_used: *mut usize,
    ) -> u8;

    pub fn order_free(checker: *mut Checker);
}
