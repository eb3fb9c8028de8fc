//! Rules of what a form reads that no walk asks, and what no form leaves out.
//@ --schema
use garde::Validate;
use serde::Deserialize;
use std::collections::BTreeMap;

#[derive(Deserialize, Validate)]
pub struct Bad {
    #[garde(custom(unique))] //~ `unique` of what a form reads, in a type with a walk, which has no such rule: say `--no-walk`
    pub tags: Vec<String>,
    #[garde(custom(keys(ascii)))] //~ `keys` of what a form reads, in a type with a walk, which has no such rule: say `--no-walk`
    pub labels: BTreeMap<String, u8>,
}
