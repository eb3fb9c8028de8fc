//! The whole configuration.
//@ --spelled Config
use garde::Validate;
use regex::Regex;
use serde::Deserialize;
use std::collections::BTreeMap;
use std::net::IpAddr;

/// The files of an encrypted connection.
#[derive(Deserialize, Validate)]
#[serde(deny_unknown_fields)]
pub struct Tls {
    #[garde(suffix(".pem"))]
    pub certificate: String,
    #[garde(suffix(".pem"))]
    pub key: String,
}

/// The place of a service: a host by its address, or by a name that the pattern matches, and a
/// port.
#[derive(Deserialize, Validate)]
#[garde(context(Regex as names))]
#[serde(deny_unknown_fields)]
pub struct Server {
    #[garde(if(cond = self.host.parse::<IpAddr>().is_err(), pattern(names)))]
    pub host: String,
    #[garde(range(min = 1))]
    pub port: u16,
    #[garde(range(min = 1, max = 64))]
    pub workers: u16,
    /// How many connections the workers take together.
    #[garde(skip)]
    pub connections: u16,
    #[garde(dive(()))]
    pub tls: Option<Tls>,
}

/// How much is logged.
#[derive(Clone, Copy, Deserialize)]
#[serde(rename_all = "lowercase")]
pub enum Level {
    Error,
    Info,
    Debug,
}

/// A log. At the level `debug` it has a file.
#[derive(Deserialize, Validate)]
#[serde(deny_unknown_fields)]
pub struct Logging {
    #[garde(skip)]
    pub level: Level,
    #[garde(if(cond = self.level == Level::Debug, required), length(min = 1, max = 255))]
    pub file: Option<String>,
}

/// What a resource may take.
#[derive(Clone, Copy, Deserialize, Validate)]
#[serde(deny_unknown_fields)]
pub struct Limit {
    #[garde(skip)]
    pub min: u32,
    #[garde(range(min = self.min))]
    pub max: u32,
}

/// The configuration of a service, with limits by the names of resources.
#[derive(Deserialize, Validate)]
#[garde(context(Regex as names))]
#[serde(deny_unknown_fields)]
pub struct Config {
    #[garde(dive)]
    pub server: Server,
    #[garde(dive(()))]
    pub logging: Logging,
    #[garde(length(min = 1, max = 100), dive(()))]
    pub limits: BTreeMap<String, Limit>,
}
