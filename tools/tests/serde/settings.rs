//! Settings with default values, and derives that are left out.
//@ --leave-out JsonSchema --leave-out schemars
use garde::Validate;
use schemars::JsonSchema;
use serde::{Deserialize, Serialize};

/// The settings of a service.
#[derive(Clone, Debug, Default, PartialEq, Deserialize, Serialize, Validate, JsonSchema)]
#[serde(default, deny_unknown_fields)]
#[schemars(title = "Settings")]
#[non_exhaustive]
pub struct Limits {
    #[garde(range(min = 1, max = 64))]
    pub workers: u16,
    /// In percent.
    #[garde(range(max = 100))]
    #[serde(rename(deserialize = "load"), alias = "most")]
    #[schemars(range(max = 100))]
    pub load: Option<u8>,
}

/// Where a service listens.
#[derive(Debug, serde::Deserialize, serde::Serialize, Validate)]
#[serde(rename_all = "kebab-case")]
pub struct Listener {
    #[garde(length(max = 253))]
    pub host: String,
    #[garde(range(min = 1))]
    #[serde(default = "port")]
    pub port: u16,
    #[garde(skip)]
    #[serde(default = "Vec::new", skip_serializing_if = "Vec::is_empty")]
    pub paths: Vec<String>,
    #[garde(range(max = 9))]
    #[serde(default = "crate::settings::few", skip_serializing_if = "is_few")]
    pub tries: u8,
    #[garde(skip)]
    #[serde(default = "Default::default")]
    pub notes: Vec<String>,
    #[garde(range(min = -128))]
    #[serde(default = "offset")]
    pub offset: i8,
    #[garde(dive)]
    pub limits: Limits,
}

const fn port() -> u16 { 8_080 }

fn offset() -> i8 { -1 }

fn few() -> u8 {
    Limits::default().workers as u8
}

fn is_few(tries: &u8) -> bool {
    *tries == few()
}
