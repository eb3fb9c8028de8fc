//! A subscription to events by a webhook: a list of an enum, and a condition on it.
//@ --spelled Subscription --first
use garde::Validate;
use serde::Deserialize;

/// What may happen.
#[derive(Debug, Clone, Copy, PartialEq, Eq, Deserialize)]
#[serde(rename_all = "snake_case")]
pub enum Event {
    Signup,
    Payment,
    Refund,
    Cancelled,
}

/// The subscription.
#[derive(Debug, Clone, Deserialize, Validate)]
#[serde(rename_all = "camelCase", deny_unknown_fields)]
pub struct Subscription {
    #[garde(length(chars, min = 1, max = 60))]
    pub name: String,
    #[garde(url, prefix("https://"))]
    pub callback: String,
    #[garde(length(min = 1, max = 4), custom(unique))]
    pub events: Vec<Event>,
    #[garde(custom(asks("a secret is needed for payments", self.events.contains(&Event::Payment) == false || value.is_some())))]
    pub secret: Option<String>,
    #[garde(range(min = 1, max = 10))]
    #[serde(default = "default_retries")]
    pub retries: u8,
    #[garde(skip)]
    #[serde(default)]
    pub active: bool,
}

fn default_retries() -> u8 {
    3
}
