//! Who signs up: the fields of the form and their rules.
//@ --spelled SignUp --input web-form --own crate::terms
use crate::terms::Words;
use garde::Validate;
use serde::Deserialize;

/// A topic to choose.
#[derive(Clone, Copy, Debug, Deserialize)]
#[serde(rename_all = "lowercase")]
pub enum Topic {
    News,
    Events,
}

/// A box that is checked.
#[derive(Clone, Copy, Debug, Deserialize)]
#[serde(rename_all = "lowercase")]
pub enum Tick {
    On,
}

/// Who signs up. A browser sends the topics and the terms only where they are chosen.
#[derive(Deserialize, Validate)]
#[garde(context(Words as words))]
#[serde(deny_unknown_fields)]
pub struct SignUp {
    #[garde(length(chars, min = 1, max = 40))]
    pub name: String,
    #[garde(alphanumeric, length(chars, min = 3, max = 25))]
    pub username: String,
    #[garde(length(chars, min = 12, max = 128))]
    pub password: String,
    #[garde(matches(password))]
    pub password_again: String,
    #[garde(required, range(min = 18, max = 120))]
    pub age: Option<u8>,
    /// Its field may be missing, and it may be empty.
    #[garde(prefix("+"), length(min = 9, max = 16))]
    pub phone: Option<Option<String>>,
    #[garde(length(max = 2))]
    pub topics: Option<Vec<Topic>>,
    #[garde(custom(accepted))]
    pub terms: Option<Tick>,
}
