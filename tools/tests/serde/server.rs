//! The configuration of a server, in which everything may be missing.
//@ --spelled Server
use garde::Validate;
use serde::Deserialize;
use std::collections::{BTreeMap, HashMap};

const WORKERS: u16 = 2 * DEFAULT_THREADS;
const DEFAULT_THREADS: u16 = 4;
const NAME: &str = "main";

/// How much it logs.
#[derive(Clone, Copy, Default, Deserialize)]
#[serde(rename_all = "lowercase")]
pub enum Level {
    Error,
    #[default]
    Info,
}

/// How much it takes.
#[derive(Deserialize, Validate)]
#[serde(default)]
pub struct Limits {
    #[garde(range(min = 1))]
    pub size: u64,
    #[garde(skip)]
    pub share: i8,
    #[garde(length(max = 3), inner(ascii))]
    pub hosts: Vec<String>,
    #[garde(length(max = 20))]
    pub note: Option<String>,
    #[garde(range(max = 9))]
    pub retries: Option<u8>,
    #[garde(skip)]
    #[serde(skip)]
    pub seen: HashMap<String, u8>,
}

impl Limits {
    const RETRIES: u8 = 1 << 1;

    fn retries() -> Option<u8> {
        Some(Self::RETRIES + 1)
    }
}

impl Default for Limits {
    fn default() -> Self {
        Limits {
            size: 64 * 1024,
            share: -1,
            hosts: Vec::new(),
            note: Some("as delivered".to_string()),
            retries: Self::retries(),
            seen: HashMap::new(),
        }
    }
}

/// A server.
#[derive(Deserialize, Validate)]
#[serde(rename_all = "camelCase", deny_unknown_fields)]
pub struct Server {
    #[garde(ascii, length(min = 1, max = 20))]
    #[serde(default = "name")]
    pub name: String,
    #[garde(range(min = 1))]
    #[serde(default = "workers")]
    pub workers: u16,
    #[garde(skip)]
    #[serde(default)]
    pub level: Level,
    #[garde(length(max = 9))]
    #[serde(default)]
    pub tags: Vec<String>,
    #[garde(length(max = 9), inner(length(max = 80)))]
    #[serde(default = "BTreeMap::new")]
    pub headers: BTreeMap<String, String>,
    #[garde(dive)]
    #[serde(default = "few")]
    pub limits: Limits,
    #[garde(range(max = 60))]
    #[serde(skip, default = "workers")]
    pub running: u16,
    #[garde(skip)]
    #[serde(skip_deserializing)]
    pub seen: Vec<String>,
    #[garde(skip)]
    #[serde(skip)]
    pub last: Option<String>,
}

fn name() -> String {
    NAME.into()
}

const fn workers() -> u16 {
    WORKERS
}

fn few() -> Limits {
    Limits { size: 1, note: None, ..Default::default() }
}
