//@ --schema --no-walk
use garde::Validate;
use serde::Deserialize;

#[derive(Deserialize, Validate)]
pub struct Login {
    #[garde(ascii)]
    pub word: String,
    #[garde(matches(word))]
    pub again: String, //~ the field `again`, whose rules are a type `LoginAgainRules`: give that of the file another name
}

#[derive(Deserialize, Validate)]
pub struct LoginAgainRules {
    #[garde(ascii)]
    pub name: String,
}
