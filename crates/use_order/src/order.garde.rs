//! A page of orders with their lines.
//@ --spelled Page
use garde::Validate;
use serde::Deserialize;

/// How an order comes to its customer.
#[derive(Clone, Copy, Deserialize)]
#[serde(rename_all = "lowercase")]
pub enum Delivery {
    Counter,
    Post,
}

/// So many pieces of an article, each at so many cents.
#[derive(Deserialize, Validate)]
#[serde(deny_unknown_fields)]
pub struct Line {
    #[garde(prefix("P"))]
    pub code: String,
    #[garde(range(min = 1, max = 99))]
    pub count: u32,
    #[garde(range(min = 1, max = 9999))]
    pub cents: u32,
}

/// What a customer orders. What goes by post has an address, and at the counter 3 lines are the
/// most.
#[derive(Deserialize, Validate)]
#[serde(deny_unknown_fields)]
pub struct Order {
    #[garde(length(chars, min = 1, max = 80))]
    pub customer: String,
    #[garde(skip)]
    pub delivery: Delivery,
    #[garde(if(cond = self.delivery == Delivery::Post, required), length(chars, min = 5, max = 200))]
    pub address: Option<String>,
    #[garde(length(min = 1, max = 50), if(cond = self.delivery == Delivery::Counter, length(max = 3)), dive)]
    pub lines: Vec<Line>,
}

/// One page of several, with 20 orders at most.
#[derive(Deserialize, Validate)]
#[serde(deny_unknown_fields)]
pub struct Page {
    #[garde(range(min = 1))]
    pub number: u32,
    #[garde(length(max = 20), dive)]
    pub entries: Vec<Order>,
}
