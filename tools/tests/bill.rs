//! A bill and how it is paid, with the forms that read both.
//@ --schema
use garde::Validate;
use serde::Deserialize;

/// How it is paid.
#[derive(Debug, Deserialize, Validate)]
#[serde(tag = "kind", rename_all = "lowercase", rename_all_fields = "camelCase")]
pub enum Payment {
    Card {
        #[garde(ascii, length(equal = 16))]
        card_no: String,
        #[garde(range(min = 2024, max = 2040))]
        year: u16,
    },
    Account {
        #[garde(alphanumeric)]
        holder: Option<String>,
    },
    Cash,
}

/// The number of a bill.
#[derive(Debug, Deserialize, Validate)]
#[garde(transparent)]
pub struct Number(#[garde(prefix("B"))] pub String);

/// Where it was written.
#[derive(Debug, Deserialize, Validate)]
#[serde(rename_all = "kebab-case")]
pub enum Origin {
    Shop {
        #[garde(range(max = 99))]
        till: u8,
    },
    WebSite(#[garde(url)] String),
}

/// A bill.
#[derive(Debug, Deserialize, Validate)]
pub struct Bill {
    #[garde(dive)]
    pub number: Number,
    #[garde(range(min = 1))]
    pub cents: u64,
    #[garde(dive)]
    pub payment: Payment,
    #[garde(dive)]
    pub origin: Option<Origin>,
}
