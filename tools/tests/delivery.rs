//! A delivery, as a body that a static library checks.
//@ --body Delivery
use garde::Validate;
use serde::Deserialize;

/// When it comes.
#[derive(Clone, Copy, Default, Deserialize)]
#[serde(rename_all = "snake_case")]
pub enum Hours {
    #[default]
    AnyTime,
    #[serde(rename = "morning", alias = "am")]
    Morning,
}

/// Where it stands.
#[derive(Deserialize, Validate)]
#[serde(transparent)]
pub struct Floor(#[garde(range(min = -3, max = 40))] pub i16);

/// A box of it.
#[derive(Deserialize, Validate)]
#[serde(deny_unknown_fields)]
pub struct Crate {
    #[garde(ascii, length(min = 2, max = 20))]
    pub name: String,
    #[garde(range(min = 1, max = 99))]
    #[serde(default = "one")]
    pub pieces: u8,
    #[garde(skip)]
    #[serde(default)]
    pub fragile: bool,
    #[garde(skip)]
    pub weight: u64,
    #[garde(skip)]
    pub seen: Vec<Option<bool>>,
}

/// A delivery.
#[derive(Deserialize, Validate)]
#[serde(rename_all = "camelCase", deny_unknown_fields)]
pub struct Delivery {
    #[garde(required, range(max = 30000))]
    #[serde(rename = "grams")]
    pub weight: Option<u16>,
    #[garde(skip)]
    #[serde(default)]
    pub hours: Hours,
    #[garde(dive)]
    pub floor: Floor,
    #[garde(length(min = 1, max = 50), dive)]
    pub sent_crates: Vec<Crate>,
}

fn one() -> u8 {
    1
}
