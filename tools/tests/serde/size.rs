//! A size: a type without a text, with what JSON spells of it.
//@ --spelled Size
use garde::Validate;
use serde::Deserialize;

/// How large a thing is.
#[derive(Debug, Deserialize, Validate)]
pub struct Size {
    #[garde(range(min = 1, max = 400))]
    pub high: u16,
    #[garde(range(min = 1, max = 400))]
    pub wide: u16,
}
