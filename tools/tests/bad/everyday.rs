//@ --spelled Trip
use garde::Validate;
use semver::Version;
use serde::Deserialize;
use std::collections::BTreeMap;
use time::OffsetDateTime;

#[derive(Clone, Debug, Deserialize, Validate)]
pub struct Stop {
    #[garde(range(max = 9))]
    pub day: u8,
}

#[derive(Debug, Deserialize, Validate)]
pub struct Trip {
    #[garde(skip)]
    pub needs: Version, //~ the type `Version`, which no form of `--schema` reads: write a `String` with a rule of yours, as `custom(is_version)`
    #[garde(skip)]
    pub at: OffsetDateTime, //~ the type `OffsetDateTime`, which no form of `--schema` reads: write `#[serde(with = "time::serde::rfc3339")]` at the field, since without it serde reads a list of numbers
    #[garde(skip)]
    pub ends: (Stop, Stop), //~ the type `Stop` within a tuple, whose rules its form asks: give the tuple a name, as `struct Row(..);`, with `dive` at its fields
    #[garde(inner(range(max = 3)))] //~ `inner` of the type `(u8, u8)`, whose items the port does not know
    pub pair: (u8, u8),
    #[garde(skip)]
    pub box_of: (u8, [u8; 2]), //~ an array, a set or a map with other keys within a tuple: give the tuple a name, as `struct Row(..);`
    #[garde(skip)]
    pub many: (u8, u8, u8, u8, u8, u8, u8), //~ a tuple of more than 6 values, which no form of `--schema` reads: write a struct with fields without names, as `struct Row(..);`
    #[garde(skip)]
    pub sides: [u8; SIDES], //~ an array of `SIDES` items, which is no number and no constant of this file: write the number
    #[garde(skip)]
    #[serde(default)]
    pub color: [u8; 3], //~ `default` of the array `color`, which no list without items is: write an `Option` of it
    #[garde(skip)]
    pub points: BTreeMap<(i8, i8), u8>, //~ a map whose keys are a tuple, an array or a reference: a form reads keys that are texts, whole numbers of at most 64 bits, `char`s, addresses, enums of names, or newtypes of these, so write `BTreeMap<String, ..>` with `custom(keys(..))`
}
