//! A subscription to what happens on an account: rules over the items of its lists.
//@ --spelled Subscription
use garde::Validate;
use serde::Deserialize;

/// The last hour of a day, and how many events a day may have at most.
const LAST: u8 = 24 - 1;

/// What happens on an account.
#[derive(Clone, Copy, Debug, Deserialize, PartialEq)]
#[serde(rename_all = "snake_case")]
pub enum Happening {
    Opened,
    Payment,
    Refund,
    Closed,
}

/// Where something is sent, and how much it may cost.
#[derive(Debug, Deserialize, Validate)]
pub struct Receiver {
    #[garde(ascii)]
    pub address: String,
    #[garde(skip)]
    pub cents: u32,
    #[garde(skip)]
    pub of: Happening,
}

/// What somebody wants to hear of.
#[derive(Debug, Deserialize, Validate)]
pub struct Subscription {
    #[garde(custom(unique("comes twice")), custom(asks("payment_missing", "payments are missing", value.contains(&Happening::Payment))))]
    pub events: Vec<Happening>,
    #[garde(custom(asks("no such hour", value.iter().all(|hour| hour <= LAST))))]
    #[garde(custom(asks("too late", self.always || value.iter().all(|hour| hour <= self.last))))]
    pub hours: Vec<u8>,
    #[garde(custom(asks("a day without an hour", value.iter().all(|day| day.iter().any(|it| it <= 23)))))]
    pub days: Vec<Vec<u8>>,
    #[garde(range(max = LAST))]
    pub last: u8,
    #[garde(skip)]
    pub always: bool,
    #[garde(dive, custom(unique_by("sent twice", |one| one.address)))]
    #[garde(custom(asks("nobody is told of payments", value.iter().any(|it| it.of == Happening::Payment && it.cents > 0))))]
    pub receivers: Vec<Receiver>,
    #[garde(custom(unique("stands before")))]
    pub zones: Vec<i16>,
    #[garde(custom(asks("too cold", value >= -40 && value < self.high)))]
    pub low: i16,
    #[garde(skip)]
    pub high: i16,
    #[garde(custom(asks("too dear", value * self.most <= self.limit + 100)))]
    pub price: u64,
    #[garde(skip)]
    pub most: u32,
    #[garde(skip)]
    pub limit: u64,
    #[garde(skip)]
    pub first: Happening,
    #[garde(custom(asks("ends as it began", value != self.first)))]
    pub ended: Happening,
}
