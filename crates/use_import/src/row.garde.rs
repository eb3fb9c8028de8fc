//! A row of a stock list, and what is asked of it.
//@ --spelled Row --input rows
use garde::Validate;
use serde::Deserialize;

/// An article: how many pieces of it there are, what one of them costs in cents, and its page.
#[derive(Debug, Deserialize, Validate)]
pub struct Row {
    #[garde(prefix("P"), alphanumeric)]
    pub code: String,
    #[garde(length(chars, min = 1, max = 80))]
    pub name: String,
    #[garde(range(min = 1, max = 10_000))]
    pub quantity: u32,
    #[garde(range(min = 1, max = 50_000))]
    pub price: u32,
    #[garde(url)]
    pub page: Option<String>,
}
