// begin: of a schema
//! Bodies are checked by a JSON Schema.
use crate::checker::Checker;
use crate::faults::Faults;
use crate::options::Options;
use crate::problem::{OutOfMemory, Problem};
use crate::value::Parts;

/// Checks bodies by a JSON Schema, in room of its own, as a [`Checker`] does. The functions of the crate
/// and a checker judge schemas.
///
/// Keep one for each thread: a clone has the same schema, which is not judged again, and room of its own.
pub struct Validator(Checker);

impl Validator {
    /// Keeps a copy of the bytes of a schema. One with faults is rejected, with the place of each, and so
    /// is what is no JSON text.
    ///
    /// # Panics
    ///
    /// Where the library has another interface than this crate.
    pub fn new(schema: &[u8]) -> Result<Validator, Faults> {
        let mut checker = Checker::new();
        checker.value_with(schema, Options::new().places())?;
        checker.schema = schema.into();
        Ok(Validator(checker))
    }

    /// Makes room for bodies of so many bytes. A call may be left out.
    pub fn reserve(&mut self, body_len: u32) -> Result<(), OutOfMemory> {
        self.0.reserve(body_len)
    }

    /// Whether a body meets the schema. Reading ends at the first fault.
    pub fn is_valid(&self, body: &[u8]) -> Result<bool, OutOfMemory> {
        self.0.is_valid(body)
    }

    /// Checks a body, and reports every fault in English.
    pub fn check(&mut self, body: &[u8]) -> Result<(), Problem> {
        self.0.check(body)
    }

    /// Checks a body, and reports what the options say.
    pub fn check_with(&mut self, body: &[u8], options: Options) -> Result<(), Problem> {
        self.0.check_with(body, options)
    }

    /// Does what [`Checker::list`] does.
    pub fn list<T: AsRef<[u8]> + ?Sized>(&mut self, body: &T) -> Result<(), Problem> {
        self.0.list(body)
    }

    /// Does what [`Checker::list_with`] does.
    pub fn list_with<T: AsRef<[u8]> + ?Sized>(
        &mut self,
        body: &T,
        options: Options,
    ) -> Result<(), Problem> {
        self.0.list_with(body, options)
    }

    /// Does what [`Checker::value`] does.
    pub fn value<'b>(&mut self, body: &'b [u8]) -> Result<Parts<'b, '_>, Faults> {
        self.0.value(body)
    }

    /// Does what [`Checker::value_with`] does.
    pub fn value_with<'b>(
        &mut self,
        body: &'b [u8],
        options: Options,
    ) -> Result<Parts<'b, '_>, Faults> {
        self.0.value_with(body, options)
    }

    /// Does what [`Checker::value_in`] does.
    pub fn value_in<'b>(
        &mut self,
        body: &'b [u8],
        options: Options,
        texts: &'b mut Vec<u8>,
    ) -> Result<Parts<'b, '_>, Faults> {
        self.0.value_in(body, options, texts)
    }
}

impl Clone for Validator {
    fn clone(&self) -> Self {
        let mut checker = Checker::new();
        checker.schema = self.0.schema.clone();
        Validator(checker)
    }
}
// end: of a schema
