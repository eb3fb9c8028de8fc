//! Opening hours: a type that holds no text, under rules of whole lists.
//@ --schema --no-walk
use garde::Validate;
use serde::Deserialize;

/// A break, from one hour to another one.
#[derive(Debug, Deserialize, Validate)]
pub struct Pause {
    #[garde(range(max = 23))]
    pub from: u8,
    #[garde(range(max = 24), custom(asks("ends before it begins", value > self.from)))]
    pub until: u8,
}

/// The hours of a day.
#[derive(Debug, Deserialize, Validate)]
pub struct Hours {
    #[garde(length(min = 1, max = 24), custom(unique("comes twice")), inner(range(max = 23)))]
    pub hours: Vec<u8>,
    #[garde(dive)]
    pub pauses: Vec<Pause>,
    #[garde(range(max = 23))]
    pub last: u8,
}
