//! What no form leaves out.
//@ --schema --no-walk
use garde::Validate;
use serde::Deserialize;

#[derive(Deserialize, Validate)]
pub struct Bad {
    #[garde(skip)]
    pub is_there: bool,
    #[garde(if(cond = self.is_there, dive))] //~ `dive` under a condition, which a form cannot leave out
    pub part: Part,
    #[garde(if(cond = true, length(max = 3)))] //~ `if` of a list, which `--schema` does not write: write a rule of your own, by `custom`
    pub parts: Vec<u8>,
}

#[derive(Deserialize, Validate)]
pub struct Part {
    #[garde(ascii)]
    pub name: String,
}
