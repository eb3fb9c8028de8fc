//@ --spelled Right
use garde::Validate;
use serde::Deserialize;

#[derive(Deserialize, Validate)]
pub struct Right { //~ `Right`, which holds itself: what JSON spells of it is not stated, so say `--schema --no-walk`
    #[garde(ascii)]
    pub name: String,
    #[garde(dive)]
    pub parts: Vec<Right>,
}
