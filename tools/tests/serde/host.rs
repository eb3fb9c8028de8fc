//! A place under a pattern, which the context is.
//@ --spelled Host
use garde::Validate;
use regex::Regex;
use serde::Deserialize;
use std::collections::BTreeMap;
use std::net::IpAddr;

/// A place, by its address or its name.
#[derive(Deserialize, Validate)]
#[garde(context(Regex as names))]
pub struct Host {
    #[garde(if(cond = self.name.parse::<IpAddr>().is_err(), pattern(names)))]
    pub name: String,
    #[garde(inner(dive(())), length(max = 3))]
    pub ports: BTreeMap<String, Port>,
}

/// A port that is open.
#[derive(Clone, Copy, Deserialize, Validate)]
pub struct Port {
    #[garde(range(min = 1))]
    pub number: u16,
}
