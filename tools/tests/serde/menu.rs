//! A menu: a type that holds one which holds itself, with rules of its own.
//@ --schema --no-walk --first
use garde::Validate;
use serde::Deserialize;

/// A part of the menu, and the parts in it.
#[derive(Debug, Deserialize, Validate)]
pub struct Part {
    #[garde(ascii, length(min = 1, max = 9))]
    pub name: String,
    #[garde(dive)]
    pub parts: Vec<Part>,
}

/// The menu of a day.
#[derive(Debug, Deserialize, Validate)]
pub struct Menu {
    #[garde(range(min = 1, max = 366))]
    pub day: u16,
    #[garde(dive)]
    pub first: Part,
    #[garde(length(max = 3), dive)]
    pub others: Vec<Part>,
    #[garde(inner(length(max = 2), dive))]
    pub last: Option<Vec<Part>>,
}

/// The menus of a week.
#[derive(Debug, Deserialize, Validate)]
pub struct Week {
    #[garde(length(equal = 7), dive)]
    pub days: Vec<Menu>,
}
