//! A claim as it comes in a request, whose enums have the shapes that serde reads.
//@ --spelled Claim
use garde::Validate;
use serde::Deserialize;

/// How urgent it is, in an object under a tag.
#[derive(Clone, Copy, Debug, Deserialize)]
#[serde(tag = "level", rename_all = "lowercase", deny_unknown_fields)]
pub enum Urgency {
    Low = 1,
    High = 3,
}

/// Where it comes from. A source that is not known is another one.
#[derive(Clone, Copy, Debug, Deserialize)]
#[serde(rename_all = "lowercase")]
pub enum Source {
    Mail,
    #[serde(alias = "telephone")]
    Phone,
    #[serde(other)]
    Another,
}

/// How it is paid: by a text, or by an object with one member.
#[derive(Debug, Deserialize, Validate)]
#[serde(rename_all = "lowercase", rename_all_fields = "camelCase")]
pub enum Payment {
    Cash,
    #[serde(alias = "credit")]
    Card {
        #[garde(length(min = 8, max = 19))]
        card_number: String,
        #[garde(skip)]
        year: Option<u8>,
    },
    Free,
    Voucher(#[garde(ascii)] String),
    Later {},
}

/// What is done with it, under a tag and beside its content.
#[derive(Debug, Deserialize, Validate)]
#[serde(tag = "type", content = "with", rename_all = "snake_case")]
pub enum Action {
    Close,
    Assign(#[garde(length(min = 1))] String),
    Tag { #[garde(length(max = 5))] tags: Vec<String> },
    #[serde(other)]
    Ignored,
}

/// What happened to it, under a tag.
#[derive(Debug, Deserialize, Validate)]
#[serde(tag = "kind", rename_all = "snake_case")]
pub enum Event {
    #[serde(alias = "open")]
    Opened {
        #[garde(range(max = 2000000000))]
        at: u32,
    },
    Seen,
    #[serde(other)]
    Strange,
}

/// Who has it: an enum of one variant.
#[derive(Debug, Deserialize, Validate)]
pub enum Owner {
    Person {
        #[garde(length(min = 1, max = 40))]
        name: String,
        #[garde(range(min = 16))]
        age: u8,
    },
}

/// A claim.
#[derive(Debug, Deserialize, Validate)]
pub struct Claim {
    #[garde(skip)]
    pub urgency: Urgency,
    #[garde(skip)]
    pub source: Source,
    #[garde(dive)]
    pub payment: Payment,
    #[garde(dive)]
    pub actions: Vec<Action>,
    #[garde(dive)]
    pub event: Option<Event>,
    #[garde(dive)]
    pub owner: Owner,
}
