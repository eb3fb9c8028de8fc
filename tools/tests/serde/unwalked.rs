//! Numbers that a form reads. Those in a type without a form keep their walk.
//@ --schema --no-walk
use garde::Validate;
use serde::Deserialize;

/// A weight, whose tag is written and never read.
#[derive(Deserialize, Validate)]
#[serde(tag = "type", rename = "weight")]
pub struct Weight {
    #[garde(range(max = 30000))]
    pub grams: u16,
}

/// A box of a weight.
#[derive(Deserialize, Validate)]
pub struct Crate {
    #[garde(dive)]
    pub weight: Weight,
}

/// A load of boxes, which no form reads.
#[derive(Validate)]
pub struct Load {
    #[garde(dive)]
    pub first: Option<Crate>,
}

/// A count, which a form alone reads.
#[derive(Deserialize, Validate)]
pub struct Count {
    #[garde(range(min = 1), custom(is_even))]
    pub pieces: u8,
    #[garde(length(max = 4), inner(range(max = 9)))]
    pub digits: Vec<u8>,
}
