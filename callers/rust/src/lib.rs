//! Checks bodies in JSON by the library of `order.h`, whose answers are proved, and reports every
//! fault as problem details (RFC 9457).
//!
//! [`check`] needs no preparation. A [`Checker`] keeps its room from one body to the next.
//!
//! ```
//! use order_check::{Problem, check};
//!
//! match check(b"{,}") {
//!     Ok(()) => println!("valid"),
//!     Err(Problem::OutOfMemory) => println!("out of memory"),
//!     Err(problem) => println!("{} {}", problem.http_status(), problem.details()),
//! }
//! ```
#![warn(missing_docs, clippy::undocumented_unsafe_blocks)]

mod checker;
mod faults;
mod nodes;
mod options;
mod problem;
mod raw;
// begin: of a schema
mod validator;
// end: of a schema
mod value;

pub use checker::{Checker, is_valid};
pub use faults::{Fault, Faults, FaultsIter};
pub use options::Options;
pub use problem::{OutOfMemory, Problem};
pub use raw::Place;
// begin: of a schema
pub use validator::Validator;
// end: of a schema
pub use value::{Part, Parts, Text};

/// Checks a body, and reports every fault in English.
///
/// # Panics
///
/// Where the library has another interface than this crate.
pub fn check(body: &[u8]) -> Result<(), Problem> {
    Checker::new().check(body)
}

/// Checks a body, and reports what the options say.
///
/// # Panics
///
/// Where the library has another interface than this crate.
pub fn check_with(body: &[u8], options: Options) -> Result<(), Problem> {
    Checker::new().check_with(body, options)
}

#[cfg(test)]
mod tests;
