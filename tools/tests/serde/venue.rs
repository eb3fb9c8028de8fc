//! A venue whose parts stand among its own members.
//@ --spelled Venue
use garde::Validate;
use serde::Deserialize;
use std::collections::HashMap;

/// A place.
#[derive(Debug, Deserialize, Validate)]
pub struct Site {
    #[garde(ascii, length(min = 1, max = 60))]
    pub street: String,
    #[garde(length(max = 40))]
    pub town: Option<String>,
}

/// Whom to call.
#[derive(Debug, Deserialize, Validate)]
#[serde(rename_all = "camelCase")]
pub struct Contact {
    #[garde(prefix("+"), length(max = 16))]
    pub phone_number: String,
    #[garde(skip)]
    #[serde(default)]
    pub by_day_only: bool,
}

/// A venue. Members of other names are notes.
#[derive(Debug, Deserialize, Validate)]
pub struct Venue {
    #[garde(length(min = 1, max = 30))]
    pub name: String,
    #[garde(dive)]
    #[serde(flatten)]
    pub site: Site,
    #[garde(dive)]
    #[serde(flatten)]
    pub contact: Option<Contact>,
    #[garde(dive)]
    pub office: Option<Site>,
    #[garde(inner(ascii))]
    #[serde(flatten)]
    pub notes: HashMap<String, String>,
}
