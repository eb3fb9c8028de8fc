//! Words that are misspelt, all told at once, beside other faults of the same type.
//@ --schema
use garde::Validate;
use serde::Deserialize;

#[derive(Deserialize, Validate)]
#[serde(rename_all = "camelcase", deny_unknown_field)] //~ `rename_all` of serde without one case of names, as "camelCase": did you mean `camelCase`? //~ `deny_unknown_field` of serde, of which `--schema` writes no form: did you mean `deny_unknown_fields`?
pub struct Order {
    #[garde(lenght(max = 3))] //~ the attribute `lenght` is not known: did you mean `length`?
    pub name: String,
    #[garde(length(char, max = 3))] //~ `length` with `char`, which is not read there: did you mean `chars`?
    pub code: String,
    #[garde(range(mim = 3))] //~ `range` with `mim`, which is not read there: did you mean `min`?
    pub count: u8,
    #[garde(skip)]
    #[serde(rename = b"x")] //~ `rename` of serde with `b"x"`, where a text in quotes is read
    pub mark: u8,
    #[serde(defualt)] //~ `defualt` of serde, of which `--schema` writes no form: did you mean `default`?
    #[garde(skpi)] //~ the attribute `skpi` is not known: did you mean `skip`?
    pub kind: u8,
    #[garde(length(max = 3), inner(length(chars, max = 20)))] //~ `length(chars, ..)` of a list, which `--schema` does not write: `inner` of an `Option` is of what that holds: write `inner(inner(..))` for each item
    pub tags: Option<Vec<String>>,
    #[garde(dive)]
    pub part: Part,
}

#[derive(Deserialize)]
pub struct Part { //~ `garde` attributes at `Part`, which has no `Validate` among its derives
    #[garde(ascii)]
    pub name: String,
}
