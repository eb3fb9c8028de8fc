//! What no form is written of.
//@ --schema
use garde::Validate;
use serde::{Deserialize, Serialize};
use std::collections::{BTreeMap, HashSet};

#[derive(Deserialize, Validate)]
#[serde(untagged)]
pub enum Sum {
    Cents { #[garde(skip)] cents: u64 }, //~ the variant `Cents` of an `untagged` enum, which no test tells from `Marked`: put the one that asks for more before the other, or give it a member that the other has not
    Marked { #[garde(skip)] cents: u64, #[garde(skip)] text: String },
}

#[derive(Clone, Deserialize, Serialize, Validate)]
#[serde(expecting = "an order")]
pub struct Order {
    #[garde(ascii)]
    pub code: String,
    #[garde(dive)]
    #[serde(flatten)] //~ `flatten` at the field `sum`: its type is no struct of this file with named fields, no option of one and no map, so write `sum` as a member, without `flatten`, or say `--own` for a form of your own
    pub sum: Sum,
    #[garde(matches(code))]
    pub again: String,
    #[garde(range(max = self.most))]
    pub count: u8,
    #[garde(range(min = 1))]
    #[serde(default)]
    pub most: u8, //~ the default of the field `most`: 0 breaks `range(min = 1)`: give another default, or read an `Option`
    #[garde(length(max = 3))]
    #[serde(default)]
    pub tags: Vec<String>,
    #[garde(skip)]
    #[serde(default = "few")] //~ the default of the field `few`: `Order::MOST` is no constant of this file: write a constant, or read an `Option` and fill it in by your code
    pub few: u8,
    #[garde(skip)]
    #[serde(alias = "rate")] //~ `alias` of serde, of which `--schema` writes no form: say `--own` for a form of your own
    pub share: Duration, //~ the type `Duration`, which no form of `--schema` reads: see docs/guide/attributes.md#types-that-no-form-reads
    #[garde(skip)]
    pub ends: (u8,), //~ a tuple of one value, which no form of `--schema` reads: write the value, or a list
    #[garde(skip)]
    pub seen: HashSet<String>, //~ a set of what a form reads, in a type with a walk, which has no such rule: say `--no-walk`
    #[garde(skip)]
    #[serde(skip)]
    pub own: bool,
    #[garde(pattern("a+"))] //~ `pattern` in quotes, which no form of `--schema` holds compiled: say `--spelled TYPE`
    pub mark: String,
    #[garde(inner(ascii))]
    pub names: BTreeMap<String, String>,
    #[garde(skip)]
    pub part: Part, //~ the field `part` of the type `Part`, whose rules its form asks: write `dive`
    #[garde(inner(inner(ascii)), custom(are_apart))]
    pub rows: Vec<Vec<String>>,
}

#[derive(Deserialize, Validate)]
pub struct Part {
    #[garde(ascii)]
    pub name: String,
}

fn few() -> u8 { Order::MOST }
