//! A dispatch, whose keys, defaults and members your own code reads in part.
//@ --spelled Dispatch --own crate::own
use codes::Code;
use codes::raw_id;
use garde::Validate;
use serde::{Deserialize, Deserializer};
use std::collections::{BTreeMap, HashSet};

/// A zone, which its own code reads.
pub struct Zone(String);

impl<'de> Deserialize<'de> for Zone {
    fn deserialize<D: Deserializer<'de>>(deserializer: D) -> Result<Self, D::Error> {
        Ok(Zone(String::deserialize(deserializer)?.to_lowercase()))
    }
}

/// A lane, which is made of a text.
#[derive(Deserialize)]
#[serde(try_from = "String")]
pub struct Lane(String);

/// How it goes, among the members of the dispatch.
#[derive(Deserialize)]
#[serde(tag = "by", rename_all = "lowercase")]
pub enum Way {
    Road { lorry: String },
    Rail { waggons: u8 },
}

/// Who sends it, by a name or by what a code says.
#[derive(Deserialize)]
#[serde(untagged)]
pub enum Sender {
    Person { name: String },
    Code(Code), //~ Sender: the type `codes::Code`, which is read elsewhere: any value passes and is kept as it was; narrow `Code` in crate::own
}

/// A step, which may hold another one.
#[derive(Deserialize)]
pub struct Step {
    pub at: String,
    pub next: Option<Box<Step>>,
}

/// How it is checked.
#[derive(Deserialize, Validate)]
#[serde(default)]
pub struct Checks {
    #[garde(range(max = 100))]
    pub share: u8,
    #[garde(skip)]
    pub least: f64, //~ least: `default` of `Checks`: the function `limits::least`, which does not stand in this file: it is `None` where it is missing; fill it in by your code
    #[garde(skip)]
    pub zone: Zone, //~ zone: the type `Zone`, which is read elsewhere: any value passes and is kept as it was; narrow `Zone` in crate::own //~ zone: `default` of `Checks`: the function `Zone` has arguments: it is `None` where it is missing; fill it in by your code
}

impl Default for Checks {
    fn default() -> Self {
        Checks { share: 10, least: limits::least() + 0.5, zone: Zone("eu".to_lowercase()) }
    }
}

/// A dispatch.
#[derive(Deserialize, Validate)]
pub struct Dispatch {
    #[garde(length(min = 1))]
    pub number: String,
    #[garde(skip)]
    pub raw: raw_id, //~ raw: the type `codes::raw_id`, which is read elsewhere: any value passes and is kept as it was; narrow `RawId` in crate::own
    #[garde(inner(range(max = 9)))]
    pub counts: BTreeMap<Zone, u8>, //~ a map by `Zone`, of which a form reads no keys: any name passes; ask rules of the names by `custom(keys(..))`
    #[garde(skip)]
    pub lanes: BTreeMap<Lane, u8>, //~ a map by `Lane`, of which a form reads no keys: any name passes; ask rules of the names by `custom(keys(..))`
    #[garde(skip)]
    pub codes: HashSet<Code>, //~ codes: the type `codes::Code`, which is read elsewhere: any value passes and is kept as it was; narrow `Code` in crate::own
    #[garde(skip)]
    #[serde(rename = "sentBy", alias = "sender", alias = "from")]
    pub sent_by: Option<String>, //~ sent_by: a member with 3 names, for which there are the fields sent_by, sent_by_2, sent_by_3: none of them passes, and more than one; take the one that is there by your code
    #[garde(skip)]
    pub to: Sender,
    #[garde(skip)]
    #[serde(default = "limits::today")]
    pub day: u32, //~ day: the default of the field `day`: the function `limits::today`, which does not stand in this file: it is `None` where it is missing; fill it in by your code
    #[garde(skip)]
    #[serde(skip)]
    pub seen: std::cell::OnceCell<Code>, //~ seen: it is not read, and its type is not known: it is `()`; fill it in by your code
    #[garde(skip)]
    pub first: Step, //~ first: the type `Step`, which holds itself: any value passes and is kept as it was; narrow `Step` in crate::own
    #[garde(dive)]
    pub checks: Checks,
    #[garde(skip)]
    #[serde(flatten)]
    pub way: Way, //~ way: a field that is under `flatten` and no struct: any members pass, a map beside it has them too, and the whole object is kept as it was; narrow `DispatchWay` in crate::own
    #[garde(skip)]
    #[serde(flatten)]
    pub code: Option<Code>, //~ code: a field that is under `flatten` and no struct: any members pass, a map beside it has them too, and the whole object is kept as it was; narrow `DispatchCode` in crate::own
}
