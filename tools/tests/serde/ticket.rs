//! A ticket, whose names stand for something else in what is written of it.
//@ --spelled Ticket
use garde::Validate;
use serde::Deserialize;

/// What a ticket is of.
#[derive(Debug, Deserialize)]
#[serde(rename_all = "snake_case")]
pub enum Kind {
    Bug,
    V2Beta,
    Other,
}

/// What may be done: a variant has the name of one above, and another one that of a type.
#[derive(Debug, Deserialize, Validate)]
#[serde(tag = "do", rename_all = "camelCase", rename_all_fields = "kebab-case")]
pub enum Action {
    Other {
        #[garde(range(min = 1))]
        r#in: u8,
    },
    Report {
        #[garde(ascii)]
        sent_to: String,
        #[garde(matches(sent_to))]
        r#where: String,
    },
}

/// A type of the name of one that the port imports.
#[derive(Debug, Deserialize, Validate)]
pub struct Report {
    #[garde(length(max = 9))]
    pub text: String,
}

/// A ticket.
#[derive(Clone, Debug, Default, Deserialize, Serialize, Validate)]
#[serde(rename_all(deserialize = "camelCase"))]
#[schemars(title = "a ticket")]
#[non_exhaustive]
pub struct Ticket {
    #[garde(skip)]
    pub r#type: Kind,
    #[garde(range(max = self.r#match))]
    pub open: u16,
    #[garde(if(cond = self.r#type == Kind::Other, range(min = 2)))]
    #[serde(skip_serializing_if = "is_nothing")]
    pub r#match: u16,
    /// How it begins.
    #[garde(ascii)]
    #[serde(rename(serialize = "b"), rename(deserialize = "begins"))]
    pub begin_with: String,
    #[garde(dive)]
    pub first: Action,
    #[garde(dive)]
    pub last: Option<Report>,
}
