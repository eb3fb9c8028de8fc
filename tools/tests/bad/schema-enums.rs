//! Enums and types of which no form is written.
//@ --schema
use garde::Validate;
use serde::Deserialize;

#[derive(Deserialize, Validate)]
#[serde(tag = "kind")]
pub enum Fee {
    Fixed(#[garde(range(max = 9))] u8), //~ the variant `Fixed` under `tag` without `content`: give it fields with names
    Share(#[garde(skip)] u8, #[garde(skip)] u8), //~ the variant `Share` under `tag` without `content`: give it fields with names
    #[serde(other)]
    None,
}

#[derive(Deserialize, Validate)]
pub enum Place {
    Site { #[garde(ascii)] host: String },
    #[serde(skip)] //~ `skip` of serde, of which `--schema` writes no form
    Nowhere,
}

#[derive(Clone, Deserialize)]
pub enum Speed {
    Slow,
    Fast,
}

#[derive(Deserialize, Validate)]
pub struct Pair(#[garde(skip)] u8, #[garde(skip)] u8);

#[derive(Deserialize, Validate)]
#[garde(context(Terms))] //~ a context: the form of `--schema` has none, so say `--spelled TYPE`
pub struct Under {
    #[garde(length(max = ctx.most))]
    name: String,
}

#[derive(Deserialize, Validate)]
pub struct Folder { //~ `Folder`, whose values hold values of its own type otherwise than in one list, beside other fields
    #[garde(skip)]
    folders: Vec<Folder>,
}

#[derive(Deserialize, Validate)]
pub struct Of<T> { //~ `Of` has the parameter `T` and no use at which that is a type: write `type NAME = Of<..>;` with what it holds
    #[garde(skip)]
    value: T,
}

#[derive(Deserialize, Validate)]
pub struct Words {
    #[garde(range(max = 9))]
    data: u8,
    #[garde(adapt(crate::own::tag_text), ascii)]
    tag: u8, //~ `adapt`, of which `--schema` writes no form
    #[garde(skip)]
    #[serde(with = "crate::own")] //~ `with` of serde, of which `--schema` writes no form: say `--own` for a form of your own
    own: u8,
}

#[derive(Deserialize, Validate)]
#[serde(rename_all(deserialize = "camelCase"))]
pub struct Cases(#[garde(skip)] #[serde(default)] u8); //~ `default` of serde, of which `--schema` writes no form

#[derive(Deserialize, Validate)]
#[serde(transparent)] //~ `transparent` of serde at `Both`, which has not just one field
pub struct Both {
    #[garde(skip)]
    one: u8,
    #[garde(skip)]
    other: u8,
}

#[derive(Clone, Copy, Deserialize)]
#[serde(rename_all = "lowercase")]
pub enum Way {
    Post,
    #[serde(alias = "post")]
    Mail, //~ the name `post`, which another one has in JSON
}

#[derive(Deserialize, Validate)]
#[serde(rename_all = "camelCase")]
pub struct Twice {
    #[garde(skip)]
    how_many: u8,
    #[garde(skip)]
    #[serde(rename = "howMany")]
    count: u8, //~ the name `howMany`, which another one has in JSON
}
