//! A basket as it comes in a request, whose fields ask of one another.
//@ --schema --no-walk
use garde::Validate;
use serde::Deserialize;
use std::collections::BTreeMap;

/// The most pieces of a thing.
const MOST: u16 = 10 * DOZEN;
const DOZEN: u16 = 12;

/// How it is paid.
#[derive(Clone, Copy, Debug, Deserialize)]
#[serde(rename_all = "lowercase")]
pub enum Payment {
    Cash,
    Card,
    Bill,
}

/// What is in it.
#[derive(Debug, Deserialize, Validate)]
#[serde(deny_unknown_fields)]
pub struct Entry {
    #[garde(prefix("P"))]
    pub code: String,
    #[garde(range(max = self.pieces))]
    pub gifts: u16,
    #[garde(range(min = 1, max = MOST), custom(multiple_of(6)))]
    pub pieces: u16,
}

/// Who gets it, and how it is paid.
#[derive(Debug, Deserialize, Validate)]
#[serde(rename_all = "camelCase")]
pub struct Basket {
    #[garde(length(chars, min = 1, max = 80))]
    pub customer: String,
    #[garde(skip)]
    pub payment: Payment,
    #[garde(
        if(cond = matches!(self.payment, Payment::Card | Payment::Bill), required),
        length(min = 5, max = 200),
    )]
    pub bill_to: Option<String>,
    #[garde(length(min = 1, max = 50), if(cond = self.payment == Payment::Cash, length(max = 3)), dive)]
    pub entries: Vec<Entry>,
    #[garde(matches(customer))]
    pub again: String,
}

/// What is said of it.
#[derive(Debug, Deserialize, Validate)]
pub struct Marks {
    #[garde(length(max = 5), custom(unique), custom(has_room), inner(ascii, length(max = 10)))]
    pub tags: Vec<String>,
    #[garde(custom(unique("comes twice")), inner(range(max = 99)))]
    pub seats: Vec<u8>,
    #[garde(if(cond = self.tags.contains("rush") && !self.seats.contains(7), required), prefix("+"))]
    pub phone: Option<String>,
    #[garde(length(max = 9), custom(keys(ascii, length(max = 8))), custom(fits_on_a_page), inner(alphanumeric))]
    pub labels: BTreeMap<String, String>,
    #[garde(if(cond = self.phone.is_some() || self.note.contains("@"), length(min = 3)))]
    pub note: String,
    #[garde(if(cond = self.note != "none", range(min = 1)))]
    pub copies: u8,
    #[garde(custom(is_named))]
    pub agent: Option<String>,
}

fn has_room(tags: &Vec<String>, _: &()) -> garde::Result {
    Ok(())
}
