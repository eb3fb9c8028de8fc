//! Your own rules, with each kind of condition.
//@ --schema --no-walk
use garde::Validate;
use serde::Deserialize;
use std::collections::BTreeMap;

/// How.
#[derive(Clone, Copy, Debug, Deserialize)]
pub enum How {
    Card,
    Bill,
    Cash,
}

/// A part.
#[derive(Debug, Deserialize, Validate)]
pub struct Span {
    #[garde(skip)]
    pub from: u16,
    #[garde(skip)]
    pub until: u16,
    #[garde(skip)]
    pub named: String,
}

/// A whole.
#[derive(Debug, Deserialize, Validate)]
pub struct Order {
    #[garde(custom(asks("say no", value != true)))]
    pub flag: bool,
    #[garde(custom(asks("say so", value.is_some())))]
    pub some: Option<u8>,
    #[garde(custom(asks("pay otherwise", value == How::Card || matches!(value, How::Bill))))]
    pub how: How,
    #[garde(custom(asks("no rush", value.contains("rush") && value.len() != 3)))]
    pub tags: Vec<String>,
    #[garde(custom(asks("seven", !value.contains(7))), inner(custom(asks("beyond the last", value <= self.greatest && self.flag))))]
    pub seats: Vec<u8>,
    #[garde(skip)]
    pub greatest: u8,
    #[garde(custom(asks("an end", value.from < value.until && value.named != "x" && !value.named.is_empty())), dive)]
    pub span: Span,
    #[garde(custom(asks("empty", value.is_empty() == false && true == value.contains("@"))))]
    pub text: String,
    #[garde(custom(asks("many", value.len() <= 3)))]
    pub map: BTreeMap<String, u8>,
    #[garde(inner(custom(asks("odd", value % 2 == 0))))]
    pub even: Option<u32>,
    #[garde(custom(asks("another text", value == self.text)), if(cond = self.flag, custom(asks("long", value.len() > 3))))]
    pub again: String,
}
