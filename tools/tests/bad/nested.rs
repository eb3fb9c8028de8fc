//! Types that hold themselves otherwise than a form reads them.
//@ --schema --no-walk
use garde::Validate;
use serde::Deserialize;
use std::collections::BTreeMap;

#[derive(Deserialize, Validate)]
pub struct Two { //~ `Two`, whose values hold values of its own type otherwise than in one list, beside other fields
    #[garde(ascii)]
    pub name: String,
    #[garde(dive)] //~ `dive` of `Two` into itself: such a type is walked by a function of its own
    pub left: Vec<Two>,
    #[garde(dive)] //~ `dive` of `Two` into itself: such a type is walked by a function of its own
    pub right: Vec<Two>,
}

#[derive(Deserialize, Validate)]
pub struct Mapped { //~ `Mapped`, whose values hold values of its own type otherwise than in one list, beside other fields
    #[garde(ascii)]
    pub name: String,
    #[garde(skip)]
    pub parts: BTreeMap<String, Mapped>,
}

#[derive(Deserialize, Validate)]
pub struct Alone { //~ `Alone`, whose values hold values of its own type otherwise than in one list, beside other fields
    #[garde(dive)] //~ `dive` of `Alone` into itself: such a type is walked by a function of its own
    pub parts: Vec<Alone>,
}

#[derive(Deserialize, Validate)]
pub struct Few {
    #[garde(ascii)]
    pub name: String,
    #[garde(length(max = 3), dive)]
    pub parts: Vec<Few>, //~ the field `parts` of a type that holds itself, with more than `dive`: no form asks a rule of that list, so ask it by your code
}

#[derive(Deserialize, Validate)]
pub struct Asked {
    #[garde(if(cond = self.parts.contains("x"), ascii))]
    pub name: String,
    #[garde(dive)]
    pub parts: Vec<Asked>, //~ the field `parts` of a type that holds itself, with more than `dive`: no form asks a rule of that list, so ask it by your code
}

#[derive(Deserialize, Validate)]
pub struct Empty {
    #[garde(ascii)]
    pub name: String,
    #[garde(dive)]
    #[serde(default)]
    pub parts: Vec<Empty>, //~ the default of the field `parts` of a type that holds itself, whose list has to be there: take it out, and write `[]` in the input
}

#[derive(Deserialize, Validate)]
pub struct Right {
    #[garde(ascii)]
    pub name: String,
    #[garde(dive)]
    pub parts: Vec<Right>,
}

#[derive(Deserialize, Validate)]
pub struct Outer {
    #[garde(dive)]
    pub right: Right,
}
