use garde::Validate;
use serde::Deserialize;
use std::collections::BTreeMap;

#[derive(Deserialize, Validate)]
pub struct Bad {
    #[garde(skip)]
    #[serde(flatten)] //~ `flatten` of serde of what is neither a struct with named fields nor an enum with an inner tag
    pub rest: BTreeMap<String, u8>,
    #[garde(skip)]
    #[serde(flatten, default)] //~ `flatten` of serde beside `default`
    pub strict: Part,
    #[garde(skip)]
    #[serde(flatten)] //~ `flatten` of serde of what is neither a struct with named fields nor an enum with an inner tag
    pub closed: Closed,
    #[garde(dive)]
    #[serde(flatten)]
    pub part: Part,
    #[garde(skip)]
    #[serde(flatten)]
    pub message: Message,
    #[garde(skip)]
    #[serde(flatten)] //~ `flatten` of serde of what is neither a struct with named fields nor an enum with an inner tag
    pub letter: Letter,
}

#[derive(Deserialize)]
#[serde(tag = "kind", content = "value")]
pub enum Letter {
    Text(String),
}

#[derive(Deserialize, Validate)]
#[serde(deny_unknown_fields)]
pub struct Closed {
    #[garde(dive)]
    #[serde(flatten)] //~ `flatten` of serde beside `deny_unknown_fields`
    pub part: Part,
}

#[derive(Deserialize, Validate)]
pub struct Part {
    #[garde(ascii)]
    pub name: String,
}

#[derive(Deserialize, Validate)]
#[serde(tag = "kind")]
pub enum Message {
    Text(#[garde(ascii)] String), //~ the variant `Text` under `tag` of serde, whose value is no struct with named fields, or one that refuses unknown members: add `content`
    Part(#[garde(dive)] Part),
    Closed(#[garde(dive)] Closed), //~ the variant `Closed` under `tag` of serde, whose value is no struct with named fields, or one that refuses unknown members: add `content`
}
