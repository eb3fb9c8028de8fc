//! A service that keeps guests: what is reported of a whole file.
#![allow(dead_code)]

use std::{collections::HashMap, sync::LazyLock};

use axum::{extract::State, http::StatusCode, routing::post, Json, Router};
use garde::{Report, Unvalidated, Validate};
use regex::Regex;
use serde::{Deserialize, Serialize};
use url::Url;

static SLUG: LazyLock<Regex> = LazyLock::new(|| Regex::new("^[a-z-]+$").unwrap());

macro_rules! limits { ($($name:ident = $value:expr;)*) => { $(const $name: usize = $value;)* } }

limits! { MOST = 10; }

/// A guest.
#[derive(Clone, Debug, Deserialize, Serialize, Validate, utoipa::ToSchema)] //~ the derive `utoipa::ToSchema`, which the port does not know: take it out, or leave it out by `--leave-out ToSchema`
#[serde(rename_all = "camelCase")]
#[garde(allow_unvalidated)]
pub struct Guest {
    /// The name.
    #[garde(length(chars, min = 1, max = 40))]
    #[schema(example = "Ada")] //~ the attribute `schema`, which the port does not know: take it out, or leave it out by `--leave-out schema`
    pub name: String,
    #[garde(pattern(SLUG))] //~ the pattern `SLUG` is no part of the context: write its text in quotes, as `pattern("..")`
    pub slug: String,
    #[serde(default, skip_serializing_if = "Option::is_none")]
    #[garde(inner(length(max = 200)))]
    pub note: Option<String>,
    #[serde(default)]
    pub site: Option<Url>,
    #[garde(dive)]
    #[serde(default)]
    pub rooms: HashMap<String, Room>,
    #[garde(custom(|it: &u8, _: &()| if *it > self.least { Ok(()) } else { Err(garde::Error::new("more")) }))]
    pub nights: u8,
    #[serde(skip_deserializing)]
    pub least: u8,
    #[serde(flatten)] //~ `flatten` of serde of what is neither a struct with named fields nor an enum with an inner tag
    pub rest: HashMap<String, serde_json::Value>,
    #[serde(with = "as_text")] //~ `with` of serde, whose functions take other arguments here: take it out, and write it by hand
    pub id: u64,
}

#[derive(Clone, Debug, Deserialize, Serialize, Validate)]
#[serde(tag = "kind", content = "value", rename_all = "snake_case")]
pub enum Room {
    Single,
    Double { #[garde(range(min = 1, max = 2))] beds: u8 },
    Suite(#[garde(length(max = MOST))] Vec<String>), //~ the port cannot read `MOST`: it reads fields of `self` and of the context
}

#[derive(Debug, Clone, Copy, PartialEq, Eq, Hash, Serialize, Deserialize)]
#[repr(u8)]
pub enum Level { Low = 1, High = 2 }

#[derive(Debug, thiserror::Error)] //~ the derive `thiserror::Error`, which the port does not know: take it out, or leave it out by `--leave-out Error`
pub enum AppError {
    #[error("invalid: {0}")] //~ the attribute `error`, which the port does not know: take it out, or leave it out by `--leave-out error`
    Invalid(#[from] Report), //~ the attribute `from`, which the port does not know: take it out, or leave it out by `--leave-out from`
}

mod as_text {
    pub fn serialize() {}
}

impl Guest {
    pub const LEAST: u8 = 1;
    pub fn new() -> Self { todo!() }
}

#[tokio::main]
async fn main() {
    let app: Router = Router::new().route("/", post(create));
}

async fn create(State(_): State<()>, Json(guest): Json<Unvalidated<Guest>>) -> Result<StatusCode, AppError> {
    guest.validate()?;
    Ok(StatusCode::CREATED)
}

#[cfg(test)]
mod tests {
    use super::*;
    #[derive(Validate)]
    struct T { #[garde(email)] a: String }
}
