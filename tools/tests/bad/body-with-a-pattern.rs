//! A pattern, which a library's check holds nowhere, and one that no context has.
//@ --body Trip --module made::body
use garde::Validate;
use serde::Deserialize;

/// A trip.
#[derive(Deserialize, Validate)]
pub struct Trip {
    #[garde(pattern("^[a-z]+$"))] //~ `pattern` in quotes, which no form of `--body` holds compiled: write a rule of your own, by `custom`
    pub to: String,
}
