//! A name that `--body` writes.
//@ --body Trip --module made::body
use garde::Validate;
use serde::Deserialize;

/// A body.
#[derive(Deserialize, Validate)]
pub struct Body { //~ the name `Body`, which `--body` writes
    #[garde(ascii)]
    pub text: String,
}

/// A trip.
#[derive(Deserialize, Validate)]
pub struct Trip {
    #[garde(dive)]
    pub body: Body,
}
