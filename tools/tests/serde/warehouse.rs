//! A warehouse: defaults of enums with fields, of new types and of whole structs by a function, and members that are not read.
//@ --schema --no-walk
use garde::Validate;
use serde::Deserialize;
use std::collections::BTreeMap;

pub(crate) const HALL: &str = "hall";

/// A number of a place.
#[derive(Clone, Copy, Default, Deserialize, Validate)]
#[serde(transparent)]
pub struct Number(#[garde(range(max = 99))] pub u16);

/// Where a thing stands.
#[derive(Deserialize, Validate)]
#[serde(tag = "kind", rename_all = "kebab-case")]
pub enum Place {
    Floor,
    InShelf {
        #[garde(ascii, length(max = 9))]
        #[serde(default = "Place::shelf")]
        shelf: String,
        #[garde(dive)]
        #[serde(default)]
        row: Number,
        #[garde(skip)]
        #[serde(skip)]
        seen: bool,
    },
}

impl Place {
    pub fn shelf() -> String {
        String::from("A")
    }
}

impl Default for Place {
    fn default() -> Place {
        return Place::InShelf { shelf: Self::shelf(), row: Number(7), seen: true };
    }
}

/// A hall.
#[derive(Debug, Default, Deserialize, Validate)]
#[serde(default = "Hall::new", rename_all = "camelCase")]
pub struct Hall {
    #[garde(skip)]
    pub name: String,
    #[garde(skip)]
    pub below_zero: i32,
    #[garde(skip)]
    pub gates: BTreeMap<String, u8>,
    #[garde(skip)]
    #[serde(default)]
    pub lamps: u8,
    #[garde(skip)]
    pub owner: Option<String>,
    #[garde(skip)]
    pub lot: Option<u8>,
}

impl Hall {
    const fn new() -> Self {
        Self { below_zero: -(2 + 3) * 4 / 3, lamps: 200, ..Hall::named() }
    }

    fn named() -> Self {
        Hall { name: HALL.to_owned(), below_zero: 0, gates: Default::default(), lamps: 1, owner: None, lot: Some(u8::MAX % 100) }
    }
}

/// A warehouse.
#[derive(Deserialize, Validate)]
pub struct Warehouse {
    #[garde(dive)]
    #[serde(default)]
    pub place: Place,
    #[garde(dive)]
    #[serde(default = "Default::default")]
    pub number: Number,
    #[garde(dive)]
    pub hall: Hall,
    #[garde(dive)]
    #[serde(skip, default = "hall")]
    pub other: Hall,
    #[garde(dive)]
    #[serde(default = "places")]
    pub places: Vec<Place>,
    #[garde(length(min = 1))]
    #[serde(default = "code")]
    pub code: String,
}

fn hall() -> Hall {
    Hall { name: "".into(), ..Default::default() }
}

fn places() -> Vec<Place> {
    vec![]
}

fn code() -> String {
    "W".into()
}
