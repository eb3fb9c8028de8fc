//! Members that cannot stand among those of another type.
//@ --schema --no-walk
use garde::Validate;
use serde::Deserialize;
use std::collections::BTreeMap;

#[derive(Deserialize, Validate)]
pub struct Part {
    #[garde(ascii)]
    pub name: String,
}

#[derive(Deserialize, Validate)]
pub struct Maybe {
    #[garde(ascii)]
    pub note: Option<String>,
}

#[derive(Deserialize, Validate)]
pub struct Open {
    #[garde(skip)]
    pub number: u8,
    #[garde(skip)]
    #[serde(flatten)]
    pub rest: BTreeMap<String, u8>,
}

#[derive(Deserialize, Validate)]
#[serde(deny_unknown_fields)]
pub struct Shut {
    #[garde(skip)]
    pub number: u8,
    #[garde(dive)]
    #[serde(flatten)] //~ `flatten` at the field `part`: serde has none beside `deny_unknown_fields`, so take that out at `Shut`, or write the members here
    pub part: Part,
}

#[derive(Deserialize, Validate)]
pub struct Twice {
    #[garde(skip)]
    pub name: String,
    #[garde(dive)]
    #[serde(flatten)]
    pub part: Part, //~ the name `name`, which another one has in JSON
}

#[derive(Deserialize, Validate)]
pub struct Mixed {
    #[garde(dive)]
    #[serde(flatten)]
    pub maybe: Option<Maybe>,
    #[garde(length(max = 3))]
    #[serde(flatten)] //~ `flatten` at the field `rest`: it takes every other member, so write this field last //~ `flatten` at the field `rest`: a form asks rules of its values alone, so take out `length`
    pub rest: BTreeMap<String, u8>,
    #[garde(dive)]
    #[serde(flatten)] //~ `flatten` at the field `more`: `Open` takes every other member, so write this field last
    pub more: Open,
    #[garde(skip)]
    #[serde(flatten)] //~ `flatten` at the field `count`: its type is no struct of this file with named fields, no option of one and no map, so write `count` as a member, without `flatten`, or say `--own` for a form of your own
    pub count: u8,
}

#[derive(Deserialize, Validate)]
pub struct Alone {
    #[garde(skip)]
    #[serde(flatten)] //~ `flatten` at the field `rest`: it is the only field, so write `#[serde(transparent)]` at the type
    pub rest: BTreeMap<String, u8>,
}

#[derive(Deserialize, Validate)]
#[serde(tag = "name")]
pub enum Kind {
    Part(#[garde(dive)] Part), //~ the variant `Part` with a member `name`, which is the tag: give one of them another name
    Number(#[garde(skip)] u8), //~ the variant `Number` under `tag` without `content`: give it fields with names
}
