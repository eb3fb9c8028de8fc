//! Rules of the names of what has no names, and rules of a name that no text has.
//@ --spelled Bag
use garde::Validate;
use serde::Deserialize;
use std::collections::BTreeMap;

#[derive(Deserialize, Validate)]
pub struct Bag {
    #[garde(custom(keys(ascii)))] //~ `keys` of a list, which `--schema` does not write: it is asked of maps
    pub things: Vec<String>,
    #[garde(custom(keys(range(max = 3))))] //~ `range` of the type `TextRef<'t>`: there are no bounds here
    pub places: BTreeMap<String, u8>,
    #[garde(inner(custom(multiple_of(0))))] //~ `multiple_of` of what is no number from 1 on
    pub weights: BTreeMap<String, u8>,
    #[garde(custom(multiple_of(2)))] //~ `multiple_of` of the type `TextRef<'t>`, which is no whole number
    pub name: String,
}
