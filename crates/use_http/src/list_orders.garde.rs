//! What is asked for of the orders: `GET /orders?customer=Ada&page=2&limit=50`.
//@ --spelled ListOrders --input request
use garde::Validate;
use serde::Deserialize;

/// Whose orders, and which page of them.
#[derive(Deserialize, Validate)]
#[serde(deny_unknown_fields)]
pub struct Page {
    #[garde(length(chars, min = 1, max = 80))]
    pub customer: Option<String>,
    #[serde(default = "first")]
    #[garde(range(min = 1, max = 10_000))]
    pub page: u32,
    #[serde(default = "some")]
    #[garde(range(min = 1, max = 100))]
    pub limit: u32,
}

fn first() -> u32 {
    1
}

fn some() -> u32 {
    20
}

/// What is asked for, by the query.
#[derive(Deserialize, Validate)]
pub struct ListOrders {
    #[garde(dive)]
    pub query: Page,
}
