//! Collections: how many items there are, and rules of each.
use garde::Validate;
use std::collections::{BTreeMap, BTreeSet};

/// What a shop has.
#[derive(Validate)]
pub struct Shop {
    #[garde(length(min = 1, max = 3), inner(ascii, length(min = 2)))]
    pub names: Vec<String>,
    #[garde(length(max = 2), inner(range(min = 1, max = 999)))]
    pub pieces: BTreeMap<String, u32>,
    #[garde(inner(alphanumeric))]
    pub shelves: BTreeMap<usize, String>,
    #[garde(length(min = 1), inner(length(max = 8)))]
    pub marks: BTreeSet<String>,
    #[garde(inner(length(min = 1), inner(ascii, length(equal = 1))))]
    pub rows: Vec<Vec<String>>,
}
