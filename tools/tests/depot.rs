//! The other collections, and parts that are shared or stand under keys.
use garde::Validate;
use std::collections::{BTreeMap, HashMap, HashSet, LinkedList, VecDeque};
use std::rc::Rc;

const WIDEST: u8 = 0x0f;

/// A door.
#[derive(Validate)]
pub struct Door {
    #[garde(range(max = WIDEST))]
    pub width: u8,
}

/// What a depot has.
#[derive(Validate)]
pub struct Depot {
    #[garde(length(max = 1), inner(range(max = 9)))]
    pub counts: HashMap<String, u32>,
    #[garde(inner(ascii))]
    pub names: HashMap<usize, String>,
    #[garde(length(min = 1), inner(length(max = 4)))]
    pub keys: HashSet<String>,
    #[garde(length(max = 1), inner(range(max = 9)))]
    pub queue: VecDeque<u8>,
    #[garde(length(max = 1), inner(range(max = 9)))]
    pub chain: LinkedList<u8>,
    #[garde(inner(range(max = 9)))]
    pub digits: [u8; 3],
    #[garde(dive)]
    pub gate: Rc<Door>,
    #[garde(dive)]
    pub doors: BTreeMap<String, Door>,
}
