use derive_more::Debug;
use garde::Validate;
use serde::Deserialize;

#[derive(Clone, PartialEq, Hash, Validate)] //~ the derive `Hash` without `Eq`, which it asks for here
#[derive(Debug)] //~ the derive `Debug`, which the port does not know: take it out, or leave it out by `--leave-out Debug`
#[derive(schemars::JsonSchema)] //~ the derive `schemars::JsonSchema`, which the port does not know: take it out, or leave it out by `--leave-out JsonSchema`
#[serde_with::serde_as] //~ the attribute `serde_with::serde_as`, which the port does not know: take it out, or leave it out by `--leave-out serde_with`
#[allow(dead_code)]
pub struct Bad {
    #[garde(ascii)]
    #[schemars(title = "name")] //~ the attribute `schemars`, which the port does not know: take it out, or leave it out by `--leave-out schemars`
    pub name: String,
    #[garde(email)] //~ the rule `email` is not ported: write `pattern("^[^@]+@[^@]+$")` with the pattern that you want, or a rule of your own, by `custom`
    pub mail: String,
}

#[derive(Default, Validate)]
pub struct Other {
    #[garde(ascii)]
    pub name: String, //~ `Default` of a field of the type `String`, which is made with an allocator here: take the derive out, and write a function that makes the value
    #[garde(skip)]
    pub note: Option<String>,
    #[garde(skip)]
    pub marks: Vec<u8>, //~ `Default` of a field of the type `Vec`, which is made with an allocator here: take the derive out, and write a function that makes the value
}
