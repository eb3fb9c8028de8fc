//! A rule of a number that `--body` does not state.
//@ --body Trip --module made::body
use garde::Validate;
use serde::Deserialize;

/// A trip.
#[derive(Deserialize, Validate)]
pub struct Trip {
    #[garde(if(cond = true, range(min = 1)))] //~ `if` of a number, which `--body` does not state
    pub days: u8,
}
