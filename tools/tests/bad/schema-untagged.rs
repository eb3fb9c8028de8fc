//! Enums without a tag whose variants no test tells apart, and other shapes that no form reads.
//@ --schema
use garde::Validate;
use serde::Deserialize;
use std::collections::BTreeMap;

#[derive(Deserialize, Validate)]
#[serde(untagged)]
pub enum Range {
    Short(#[garde(skip)] u8), //~ the variant `Short` of an `untagged` enum, which no test tells from `Long`: put the one that asks for more before the other, or give it a member that the other has not
    Long(#[garde(skip)] u32),
}

#[derive(Deserialize, Validate)]
#[serde(untagged)]
pub enum Rows {
    Names(#[garde(skip)] Vec<String>), //~ the variant `Names` of an `untagged` enum, which no test tells from `Sizes`: put the one that asks for more before the other, or give it a member that the other has not
    Sizes(#[garde(skip)] Vec<u8>),
}

#[derive(Deserialize, Validate)]
#[serde(untagged)]
pub enum Kept {
    Map(#[garde(skip)] BTreeMap<String, u8>), //~ the variant `Map` of an `untagged` enum, which no test tells from `Sized`: put the one that asks for more before the other, or give it a member that the other has not
    Sized { #[garde(skip)] size: u8 },
}

#[derive(Deserialize, Validate)]
#[serde(untagged)]
pub enum Point {
    Both { #[garde(skip)] x: u8, #[garde(skip)] y: u8 },
    List(#[garde(skip)] Vec<u8>), //~ the variant `List` of an `untagged` enum, whose lists serde may read as `Both`: put it before `Both`
}

#[derive(Deserialize, Validate)]
#[serde(untagged)]
pub enum Place {
    Site { #[garde(skip)] x: u8, #[garde(skip)] y: u8 },
    Pair(#[garde(skip)] u8, #[garde(skip)] u8), //~ the variant `Pair` of an `untagged` enum, whose lists serde may read as `Site`: put it before `Site`
}

#[derive(Deserialize, Validate)]
#[serde(untagged)] //~ `untagged` of serde at an enum without fields, each of whose variants is `null`
pub enum Nothing {
    First,
    Second,
}

#[derive(Clone, Copy, Deserialize)]
pub enum Level {
    #[serde(other)] //~ `other` of serde, which stands at the last variant, one without fields, of an enum that is not `untagged`
    Unknown,
    Low,
}
