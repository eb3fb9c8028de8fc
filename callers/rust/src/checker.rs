//! Room that is kept from one body to the next, and the calls of the library.
//!
//! The head of `order.h` has four lines of what a caller owes. The numbers in the comments on
//! safety are theirs. Line 3 forbids copies of a checker: a move leaves no second one behind. Line 4
//! is met by each call in the same way: this crate frees nothing that the library allocated, and
//! only unsafe code makes calls from a signal handler or from a forked child.
// begin: of a schema
use std::sync::Arc;

// end: of a schema
use crate::options::Options;
use crate::problem::{OutOfMemory, Problem};
use crate::raw;

/// The room for details that a first call has. Longer ones take a second call.
const ROOM: usize = 4096;

/// Room that is kept from one body to the next. An answer does not depend on what was checked
/// before.
///
/// Keep one for each thread. It may be sent to another thread, and is not shared:
///
/// ```compile_fail
/// fn shared<T: Sync>(_: T) {}
/// shared(order_check::Checker::new());
/// ```
pub struct Checker {
    pub(crate) raw: raw::Checker,
    pub(crate) details: Vec<u8>,
    pub(crate) nodes: Vec<raw::Node>,
    pub(crate) places: Vec<raw::Place>,
    pub(crate) texts: Vec<u8>,
    // begin: of a schema
    /// One without bytes is the schema of schemas.
    pub(crate) schema: Arc<[u8]>,
    // end: of a schema
}

// SAFETY: line 3 asks for one thread at a time, and does not ask for the same one. Each call takes
// `&mut self`.
unsafe impl Send for Checker {}

impl Checker {
    /// Has no room yet: the first check makes it.
    ///
    /// # Panics
    ///
    /// Where the library has another interface than this crate.
    pub fn new() -> Checker {
        assert_interface();
        Checker {
            raw: raw::Checker::EMPTY,
            details: Vec::new(),
            nodes: Vec::new(),
            places: Vec::new(),
            texts: Vec::new(),
            // begin: of a schema
            schema: Arc::default(),
            // end: of a schema
        }
    }

    /// Makes room for bodies of so many bytes. A call may be left out.
    pub fn reserve(&mut self, body_len: u32) -> Result<(), OutOfMemory> {
        // SAFETY: 1 and 2: the reference is to memory that nothing else uses. 3: `raw` began as
        // EMPTY, is private and is never copied, and `&mut self` is held by one thread. 4: see the
        // head.
        match unsafe { raw::order_reserve(&mut self.raw, body_len) } {
            raw::VALID => Ok(()),
            _ => Err(OutOfMemory),
        }
    }

    /// Checks a body, and reports every fault in English.
    pub fn check(&mut self, body: &[u8]) -> Result<(), Problem> {
        self.check_with(body, Options::new())
    }

    /// Checks a body, and reports what the options say.
    pub fn check_with(&mut self, body: &[u8], options: Options) -> Result<(), Problem> {
        self.answer(raw::order_check_with, body, options)
    }

    /// Checks a body, and reports every fault in English, as [`list_with`](Self::list_with) does.
    pub fn list<T: AsRef<[u8]> + ?Sized>(&mut self, body: &T) -> Result<(), Problem> {
        self.list_with(body, Options::new())
    }

    /// Checks a body, and reports what the options say, in lines: the text of a problem is not its
    /// details, but a line `path: message` for each fault, and the line `there are more` where there
    /// are. It takes less time than details. The name of an unknown member stands there as the body
    /// has it, a line feed too: escape it before you show it.
    // It is generic, so a library that has no such function is linked where nobody calls it.
    pub fn list_with<T: AsRef<[u8]> + ?Sized>(
        &mut self,
        body: &T,
        options: Options,
    ) -> Result<(), Problem> {
        self.answer(raw::order_list_with, body.as_ref(), options)
    }

    pub(crate) fn is_valid(&self, body: &[u8]) -> Result<bool, OutOfMemory> {
        // SAFETY: 1: each pointer comes from a slice, with the length of that slice, and is not NULL.
        // 2: the slices are behind `&`, and nothing is written. 3: no checker is handed over. 4: see
        // the head.
        let status = unsafe {
            raw::order_is_valid(
                // begin: of a schema
                self.schema.as_ptr(),
                self.schema.len(),
                // end: of a schema
                body.as_ptr(),
                body.len(),
            )
        };
        match status {
            raw::VALID => Ok(true),
            raw::MEMORY => Err(OutOfMemory),
            _ => Ok(false),
        }
    }

    /// What this function of the library says of a body.
    fn answer(&mut self, call: raw::Call, body: &[u8], options: Options) -> Result<(), Problem> {
        self.make_room(ROOM)?;
        let (mut status, mut len) = self.call(call, body, options);
        if len > self.details.len() {
            self.make_room(len)?;
            (status, len) = self.call(call, body, options);
        }
        match status {
            raw::VALID => Ok(()),
            raw::FAULTS => Err(Problem::Faults(text_of(&self.details[..len])?)),
            raw::NO_JSON => Err(Problem::NoJson(text_of(&self.details[..len])?)),
            raw::MEMORY => Err(Problem::OutOfMemory),
            other => unreachable!("the library returned {other}"),
        }
    }

    /// The status of a body, and the length of its details: `details` begins with them, as far as
    /// it has room.
    fn call(&mut self, call: raw::Call, body: &[u8], options: Options) -> (u8, usize) {
        let language = options.language.as_bytes();
        let mut len = 0;
        // SAFETY: 1: each pointer comes from a slice, with the length of that slice, or from a
        // reference; none is NULL. 2: what is written is behind three different `&mut`, and what is
        // read behind `&`. 3: `raw` began as EMPTY, is private and is never copied, and `&mut self`
        // is held by one thread. 4: see the head.
        let status = unsafe {
            call(
                &mut self.raw,
                // begin: of a schema
                self.schema.as_ptr(),
                self.schema.len(),
                // end: of a schema
                body.as_ptr(),
                body.len(),
                options.most.get(),
                language.as_ptr(),
                language.len(),
                self.details.as_mut_ptr(),
                self.details.len(),
                &mut len,
            )
        };
        (status, len)
    }

    /// Makes room for details of so many bytes.
    fn make_room(&mut self, len: usize) -> Result<(), OutOfMemory> {
        grow(&mut self.details, len, 0)
    }
}

impl Default for Checker {
    fn default() -> Self {
        Checker::new()
    }
}

impl Drop for Checker {
    fn drop(&mut self) {
        // SAFETY: 1 and 2: the reference is to memory that nothing else uses. 3: `raw` began as
        // EMPTY, is private and is never copied, and `&mut self` is held by one thread. 4: see the
        // head.
        unsafe { raw::order_free(&mut self.raw) }
    }
}

/// Whether a body is valid. Reading ends at the first fault. Bytes that are no JSON text are not
/// valid.
///
/// # Panics
///
/// Where the library has another interface than this crate.
pub fn is_valid(body: &[u8]) -> Result<bool, OutOfMemory> {
    Checker::new().is_valid(body)
}

/// Panics where the library has another interface than this crate.
fn assert_interface() {
    assert_eq!(
        raw::order_version(),
        raw::VERSION,
        "liborder.a has another interface than the crate order_check"
    );
}

/// Makes a room as long as this, with such things behind what it has.
pub(crate) fn grow<T: Clone>(room: &mut Vec<T>, len: usize, with: T) -> Result<(), OutOfMemory> {
    let more = len.saturating_sub(room.len());
    room.try_reserve_exact(more).or(Err(OutOfMemory))?;
    room.resize(room.len() + more, with);
    Ok(())
}

/// Details as a text of their own.
pub(crate) fn text_of(details: &[u8]) -> Result<String, OutOfMemory> {
    let details = std::str::from_utf8(details).expect("the library writes UTF-8");
    let mut text = String::new();
    text.try_reserve_exact(details.len()).or(Err(OutOfMemory))?;
    text.push_str(details);
    Ok(text)
}
