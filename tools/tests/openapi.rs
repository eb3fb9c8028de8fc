//! The beginning of an OpenAPI document: parts that may be missing.
//@ --spelled OpenApi --first
use garde::Validate;
use serde::Deserialize;

/// Whom to write to.
#[derive(Debug, Clone, Deserialize, Validate)]
pub struct Contact {
    #[garde(length(min = 1))]
    pub name: Option<String>,
    #[garde(url)]
    pub url: Option<String>,
    #[garde(contains("@"))]
    pub email: Option<String>,
}

/// Under what licence the API is.
#[derive(Debug, Clone, Deserialize, Validate)]
pub struct License {
    #[garde(length(min = 1))]
    pub name: String,
    #[garde(custom(asks("either an identifier or a URL", value.is_none() || self.url.is_none())))]
    pub identifier: Option<String>,
    #[garde(url)]
    pub url: Option<String>,
}

/// What the API is.
#[derive(Debug, Clone, Deserialize, Validate)]
#[serde(rename_all = "camelCase")]
pub struct Info {
    #[garde(length(min = 1))]
    pub title: String,
    #[garde(skip)]
    pub summary: Option<String>,
    #[garde(skip)]
    pub description: Option<String>,
    #[garde(url)]
    pub terms_of_service: Option<String>,
    #[garde(dive)]
    pub contact: Option<Contact>,
    #[garde(dive)]
    pub license: Option<License>,
    #[garde(length(min = 1))]
    pub version: String,
}

/// The document.
#[derive(Debug, Clone, Deserialize, Validate)]
pub struct OpenApi {
    #[garde(prefix("3."))]
    pub openapi: String,
    #[garde(dive)]
    pub info: Info,
}
