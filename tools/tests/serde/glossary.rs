//! Patterns in quotes: of types in one another, of items, under a condition, of one name, and one with
//! letters of another language.
//@ --spelled Glossary
use garde::Validate;
use serde::Deserialize;

/// A glossary.
#[derive(Deserialize, Validate)]
pub struct Glossary {
    #[garde(pattern(r"^[A-Z]\d+$"))]
    pub code: String,
    #[garde(length(max = 9), inner(dive))]
    pub words: Vec<Word>,
    #[garde(dive)]
    pub shelf: Shelf,
    #[garde(inner(dive))]
    pub others: Option<Vec<Shelf>>,
}

/// A word, with what it is related to.
#[derive(Deserialize, Validate)]
pub struct Word {
    #[garde(pattern("^[a-z]+$"), pattern("[^\"]$"))]
    pub code: String,
    #[garde(if(cond = self.is_long, pattern("^[a-z]+( [a-z]+){5,40}( [a-z]+\\.| and so on| and further ones like it)$")))]
    pub text: Option<String>,
    #[garde(skip)]
    pub is_long: bool,
    #[garde(inner(pattern("^[a-zäöü]+$")))]
    pub alloc: Vec<String>,
}

/// Where it is.
#[derive(Clone, Copy, Deserialize, Validate)]
pub struct Shelf {
    #[garde(range(max = 9))]
    pub row: u8,
}
