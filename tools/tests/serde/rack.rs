//! A rack in a store: arrays, sets, and maps with other keys.
//@ --spelled Rack
use garde::Validate;
use serde::Deserialize;
use std::collections::{BTreeMap, BTreeSet, HashMap, HashSet};
use std::path::PathBuf;

/// The sides of a rack.
const SIDES: usize = 3;

/// A room.
#[derive(Clone, Copy, Debug, Deserialize, PartialEq, Eq, Hash, PartialOrd, Ord)]
#[serde(rename_all = "lowercase")]
pub enum Room {
    Hall,
    Attic,
}

/// The code of an article.
#[derive(Debug, Deserialize, PartialEq, Eq, Validate)]
pub struct Code(#[garde(ascii, length(max = 4))] pub String);

/// Where a hook is, from the left and from below.
#[derive(Clone, Copy, Debug, Deserialize, PartialEq, Eq, PartialOrd, Ord, Validate)]
pub struct Hook(#[garde(range(max = 99))] pub u8, #[garde(skip)] pub u8);

/// A rack.
#[derive(Debug, Deserialize, Validate)]
pub struct Rack {
    #[garde(skip)]
    pub plan: PathBuf,
    #[garde(inner(range(min = 1)))]
    pub size: [u16; SIDES],
    #[garde(skip)]
    pub color: Option<[u8; 3]>,
    #[garde(length(max = 5), inner(ascii))]
    pub tags: BTreeSet<String>,
    #[garde(skip)]
    pub sills: BTreeSet<i8>,
    #[garde(skip)]
    pub rooms: HashSet<Room>,
    #[garde(dive)]
    pub hooks: BTreeSet<Hook>,
    #[garde(skip)]
    pub free: BTreeMap<Room, u8>,
    #[garde(inner(ascii))]
    pub texts: BTreeMap<u16, String>,
    #[garde(length(max = 9))]
    pub stock: HashMap<Code, u32>,
}
