//! A notice whose kinds are parts: each of them stands beside the tag.
//@ --schema --no-walk
use garde::Validate;
use serde::Deserialize;

/// A visit that is announced. It knows no further member.
#[derive(Debug, Deserialize, Validate)]
#[serde(deny_unknown_fields)]
pub struct Visit {
    #[garde(ascii, length(min = 1, max = 30))]
    pub name: String,
    #[garde(range(min = 1, max = 9))]
    pub guests: u8,
}

/// Something that is sent.
#[derive(Debug, Deserialize, Validate)]
pub struct Sending {
    #[garde(range(min = 1))]
    pub number: u32,
}

/// What is noticed.
#[derive(Debug, Deserialize, Validate)]
#[serde(tag = "kind", rename_all = "snake_case")]
pub enum Notice {
    Visit(#[garde(dive)] Visit),
    Delivery(#[garde(dive)] Sending),
    Return(#[garde(dive)] Sending),
    Closing {
        #[garde(range(max = 24))]
        hour: u8,
    },
}
