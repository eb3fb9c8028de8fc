//! Values that are valid.
use std::fmt::{self, Display, Formatter};
use std::ops::Deref;

use order_check::{Faults, Options, Parts};
use serde::Deserialize;

use crate::read::{Misfit, Reader};

/// A value of a body that was found valid. [`check`] and [`Checker`] alone make one, so a function that
/// takes it needs to check nothing:
///
/// ```compile_fail
/// let made = order_serde::Valid(1);
/// ```
#[derive(Clone, Copy, Debug, PartialEq, Eq, PartialOrd, Ord, Hash)]
pub struct Valid<T>(T);

impl<T> Valid<T> {
    /// The value, which says no longer that it is valid.
    pub fn into_inner(self) -> T {
        self.0
    }
}

impl<T> Deref for Valid<T> {
    type Target = T;

    fn deref(&self) -> &T {
        &self.0
    }
}

impl<T: Display> Display for Valid<T> {
    fn fmt(&self, f: &mut Formatter<'_>) -> fmt::Result {
        self.0.fmt(f)
    }
}

/// A checker that keeps its room from one body to the next: one for each thread.
#[derive(Default)]
pub struct Checker(order_check::Checker);

impl Checker {
    /// Has no room yet.
    ///
    /// # Panics
    ///
    /// Where the library has another interface than this crate.
    pub fn new() -> Checker {
        Checker::default()
    }

    /// Does what the function [`check_with`] does.
    pub fn check_with<'b, T: Deserialize<'b>>(
        &mut self,
        body: &'b [u8],
        options: Options,
    ) -> Result<Valid<T>, Faults> {
        made(self.0.value_with(body, options)?)
    }

    /// Does what [`check_with`] does. Texts with an escape are made in this room, so that a type may
    /// borrow them too, as it may borrow those of the body.
    pub fn check_in<'b, T: Deserialize<'b>>(
        &mut self,
        body: &'b [u8],
        options: Options,
        texts: &'b mut Vec<u8>,
    ) -> Result<Valid<T>, Faults> {
        made(self.0.value_in(body, options, texts)?)
    }
}

// begin: of a schema
/// Checks bodies by a JSON Schema, in room of its own: one for each thread, by `clone`. The functions of
/// the crate and a checker judge schemas.
#[derive(Clone)]
pub struct Validator(order_check::Validator);

impl Validator {
    /// Keeps a copy of the bytes of a schema. One with faults is rejected, with the place of each, and so
    /// is what is no JSON text.
    ///
    /// # Panics
    ///
    /// Where the library has another interface than this crate.
    pub fn new(schema: &[u8]) -> Result<Validator, Faults> {
        Ok(Validator(order_check::Validator::new(schema)?))
    }

    /// The value of a body that meets the schema, or every fault in English.
    pub fn check<'b, T: Deserialize<'b>>(&mut self, body: &'b [u8]) -> Result<Valid<T>, Faults> {
        self.check_with(body, Options::new())
    }

    /// Does what [`Checker::check_with`] does.
    pub fn check_with<'b, T: Deserialize<'b>>(
        &mut self,
        body: &'b [u8],
        options: Options,
    ) -> Result<Valid<T>, Faults> {
        made(self.0.value_with(body, options)?)
    }

    /// Does what [`Checker::check_in`] does.
    pub fn check_in<'b, T: Deserialize<'b>>(
        &mut self,
        body: &'b [u8],
        options: Options,
        texts: &'b mut Vec<u8>,
    ) -> Result<Valid<T>, Faults> {
        made(self.0.value_in(body, options, texts)?)
    }
}

// end: of a schema
fn made<'b, T: Deserialize<'b>>(parts: Parts<'b, '_>) -> Result<Valid<T>, Faults> {
    let value = T::deserialize(&mut Reader::new(parts));
    value
        .map(Valid)
        .map_err(|misfit: Misfit| Faults::misfit(misfit.to_string()))
}

/// The value of a valid body, or every fault in English.
pub fn check<'b, T: Deserialize<'b>>(body: &'b [u8]) -> Result<Valid<T>, Faults> {
    check_with(body, Options::new())
}

/// The value of a valid body, or the faults that the options ask for. Where the type does not fit a valid
/// body, the one fault is `misfit`, and the status of HTTP is 500.
///
/// # Panics
///
/// Where the library has another interface than this crate.
pub fn check_with<'b, T: Deserialize<'b>>(
    body: &'b [u8],
    options: Options,
) -> Result<Valid<T>, Faults> {
    Checker::new().check_with(body, options)
}
