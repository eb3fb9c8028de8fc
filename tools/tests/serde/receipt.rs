//! A receipt: what JSON spells of it is stated, with a union of each kind.
//@ --spelled Receipt
use garde::Validate;
use serde::Deserialize;
use std::collections::BTreeMap;

/// How it was paid.
#[derive(Debug, Deserialize, Validate)]
#[serde(tag = "kind", rename_all = "lowercase", rename_all_fields = "camelCase", deny_unknown_fields)]
pub enum Payment {
    Card {
        #[garde(ascii, length(equal = 16))]
        card_no: String,
        #[garde(range(min = 2024, max = 2040))]
        year: u16,
    },
    Voucher {
        #[garde(alphanumeric)]
        code: Option<String>,
    },
    Cash,
}

/// Where it was written.
#[derive(Debug, Deserialize, Validate)]
#[serde(rename_all = "kebab-case")]
pub enum Origin {
    Shop {
        #[garde(range(max = 99))]
        till: u8,
    },
    WebSite(#[garde(url)] String),
}

/// What was sold.
#[derive(Debug, Deserialize, Validate)]
#[serde(tag = "unit", content = "sold")]
pub enum Sold {
    Pieces(#[garde(range(min = 1))] u8),
    Grams {
        #[garde(custom(multiple_of(50)))]
        most: u32,
    },
}

/// A receipt.
#[derive(Debug, Deserialize, Validate)]
#[serde(deny_unknown_fields)]
pub struct Receipt {
    #[garde(range(min = 1), custom(multiple_of(5)))]
    pub cents: u32,
    #[garde(custom(multiple_of(25)))]
    pub change: i16,
    #[garde(length(max = 9), custom(keys(ascii, length(max = 8))), inner(range(min = 1)))]
    pub taxes: BTreeMap<String, u32>,
    #[garde(custom(keys(prefix("x-"))))]
    pub notes: BTreeMap<String, String>,
    #[garde(dive)]
    pub payment: Payment,
    #[garde(length(min = 1, max = 50), dive)]
    pub sold: Vec<Sold>,
    #[garde(dive)]
    pub origin: Option<Origin>,
}
