use garde::Validate;
use serde::{Deserialize, Serialize};

#[derive(Deserialize, Serialize, Validate)]
#[serde(rename_all(serialize = "lowercase", deserialize = "UPPERCASE"))] //~ `rename_all` of serde without one case of names, as "camelCase", for reading and writing
#[serde(tag = "kind")] //~ `tag` of serde at a struct, which is read at an enum alone
pub struct Bad {
    #[garde(ascii)]
    #[serde(with = "as_text")] //~ `with` of serde, whose functions take other arguments here: take it out, and write it by hand
    pub name: String,
    #[garde(range(max = 9))]
    #[serde(getter = "Bad::title")] //~ `getter` of serde, which the toolchain's serde has not
    #[serde(default = "Bad::title")] //~ `default` of serde with `Bad::title`, which is no function outside of `impl` blocks
    pub title: Option<u8>,
    #[garde(ascii)]
    #[serde(default = "any_host")] //~ `default` of serde by a function at the type `String`, which is made with an allocator: such a function gets none here
    pub host: String,
}

#[derive(Deserialize, Validate)]
#[serde(try_from = "String")] //~ `try_from` of serde, which asks for an `impl` that the port leaves out
pub struct Pair(#[serde(default)] #[garde(skip)] pub u8, #[garde(skip)] pub u8); //~ `default` of serde, which the toolchain's serde has not at a field without a name

#[derive(Deserialize)]
#[serde(default)] //~ `default` of serde at a type that is no struct with named fields
pub enum Kind {
    First,
    #[serde(untagged)] //~ `untagged` of serde, which the toolchain's serde has not at a variant
    Other(String),
}

#[derive(Deserialize, Validate)]
#[serde(default)] //~ `default` of serde at `Rest`, which has no `Default` among its derives
pub struct Rest {
    #[garde(skip)]
    pub name: String,
}
