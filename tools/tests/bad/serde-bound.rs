use garde::Validate;
use serde::Deserialize;

#[derive(Deserialize, Validate)]
#[serde(bound(deserialize = "T: Deserialize<'de>"))] //~ `bound` of serde, which names parameters here, as `bound(T)`: take it out, and write it by hand
#[serde(crate = "other")] //~ `crate` of serde, which the toolchain's serde has not
#[serde(rename_all)] //~ `rename_all` of serde without one case of names, as "camelCase", for reading and writing
pub struct Bad<T: Validate> {
    #[garde(dive)]
    #[serde(rename = 3)] //~ `rename` of serde with `3`, where a text in quotes is read
    pub value: T,
}
