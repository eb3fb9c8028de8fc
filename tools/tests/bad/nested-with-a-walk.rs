//@ --schema
use garde::Validate;
use serde::Deserialize;

#[derive(Deserialize, Validate)]
pub struct Right { //~ `Right`, which holds itself: it has no walk, so say `--schema --no-walk`
    #[garde(ascii)]
    pub name: String,
    #[garde(dive)]
    pub parts: Vec<Right>,
}
