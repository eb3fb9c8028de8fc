//! Makes a type of serde of the JSON value that the library of `order.h` found valid: with no second
//! parse, so what was judged is what the caller gets.
//!
//! ```
//! use order_serde::{Faults, Valid, check};
//!
//! fn customer(body: &[u8]) -> Result<String, Faults> {
//!     let order: Valid<serde_json::Value> = check(body)?;
//!     Ok(order["customer"].to_string())
//! }
//! assert_eq!(customer(b"{,}").unwrap_err().http_status(), 400);
//! ```
#![forbid(unsafe_code)]
#![warn(missing_docs)]

mod read;
mod valid;

pub use order_check::{Fault, Faults, Options};
pub use read::Misfit;
pub use valid::{Checker, Valid, check, check_with};
// begin: of a schema
pub use valid::Validator;
// end: of a schema
