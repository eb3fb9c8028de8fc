//! A parcel as it comes in a request, with the form that reads it.
//@ --schema --no-walk
use garde::Validate;
use serde::Deserialize;
use std::collections::BTreeMap;

/// How fast it goes.
#[derive(Clone, Copy, Debug, Default, PartialEq, Deserialize)]
#[serde(rename_all = "snake_case")]
pub enum Speed {
    #[default]
    NextDay,
    #[serde(rename = "slow", alias = "by_ship")]
    Slow,
}

/// A thing in it.
#[derive(Debug, Deserialize, Validate)]
#[serde(deny_unknown_fields)]
pub struct Thing {
    #[garde(ascii, length(min = 2, max = 20))]
    pub name: String,
    #[garde(range(min = 1, max = 99))]
    #[serde(default = "one")]
    pub pieces: u8,
    #[garde(skip)]
    #[serde(default)]
    pub fragile: bool,
}

/// A parcel.
#[derive(Debug, Deserialize, Validate)]
#[serde(rename_all = "camelCase", deny_unknown_fields)]
pub struct Parcel {
    #[garde(range(min = 1))]
    pub number: u32,
    #[garde(length(chars, min = 1, max = 80))]
    pub sent_to: String,
    #[garde(prefix("+"), length(max = 16))]
    pub phone: Option<String>,
    #[garde(required, range(max = 30000))]
    #[serde(rename = "grams")]
    pub weight: Option<u16>,
    #[garde(skip)]
    #[serde(default)]
    pub speed: Speed,
    #[garde(length(min = 1, max = 50), dive)]
    pub things: Vec<Thing>,
    #[garde(length(max = 5), inner(alphanumeric))]
    pub marks: Vec<String>,
    #[garde(length(max = 3))]
    pub labels: BTreeMap<String, String>,
}

fn one() -> u8 {
    1
}
