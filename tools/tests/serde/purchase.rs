//! A purchase whose parts are used at several members.
//@ --spelled Purchase
use garde::Validate;
use serde::Deserialize;
use std::collections::BTreeMap;

/// A place.
#[derive(Debug, Deserialize, Validate)]
pub struct Address {
    #[garde(ascii, length(min = 1, max = 60))]
    pub street: String,
    #[garde(length(max = 40))]
    pub town: Option<String>,
}

/// How large a thing is. It has no text.
#[derive(Debug, Deserialize, Validate)]
pub struct Size {
    #[garde(range(min = 1, max = 400))]
    pub high: u16,
    #[garde(range(min = 1, max = 400))]
    pub wide: u16,
}

/// Who buys.
#[derive(Debug, Deserialize, Validate)]
pub struct Buyer {
    #[garde(length(min = 1, max = 30))]
    pub name: String,
    #[garde(dive)]
    pub home: Address,
}

/// A purchase.
#[derive(Debug, Deserialize, Validate)]
pub struct Purchase {
    #[garde(dive)]
    pub buyer: Buyer,
    #[garde(dive)]
    pub billing: Address,
    #[garde(dive)]
    pub shipping: Option<Address>,
    #[garde(length(max = 5), dive)]
    pub stops: Vec<Address>,
    #[garde(length(max = 3), dive)]
    pub shops: BTreeMap<String, Address>,
    #[garde(dive)]
    pub parcel: Size,
    #[garde(dive)]
    pub letter: Option<Size>,
}
