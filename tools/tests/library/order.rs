//! The body that the library checks: an order, with its form and its rules.
//@ --body Order --library --module example_order::body
use garde::Validate;
use serde::Deserialize;

/// So many pieces of an article.
#[derive(Deserialize, Validate)]
#[serde(deny_unknown_fields)]
pub struct Line {
    #[garde(prefix("P"))]
    pub code: String,
    #[garde(range(min = 1, max = 99))]
    pub count: u32,
}

/// Who orders, and the lines.
#[derive(Deserialize, Validate)]
#[serde(deny_unknown_fields)]
pub struct Order {
    #[garde(length(chars, min = 1, max = 80))]
    pub customer: String,
    #[garde(length(min = 1, max = 50), dive)]
    pub lines: Vec<Line>,
}
