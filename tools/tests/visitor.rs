//! Texts under patterns: compiled ones of a context, and one in quotes.
use garde::Validate;
use regex::Regex;

/// The compiled patterns of visitors.
pub struct Patterns {
    pub mail: Regex,
    pub phone: Regex,
}

/// Who visits.
#[derive(Validate)]
#[garde(context(Patterns as patterns))]
pub struct Visitor {
    #[garde(ascii, pattern(patterns.mail))]
    pub mail: String,
    #[garde(pattern(patterns.phone))]
    pub phone: Option<String>,
}

/// What a visitor wears.
#[derive(Validate)]
pub struct Badge {
    #[garde(pattern(r"^[A-Z]{2}[0-9]+$"))]
    pub number: String,
    #[garde(inner(pattern("^[a-z]+$")))]
    pub colors: Vec<String>,
    #[garde(dive)]
    pub desk: Desk,
}

/// Where a badge is given.
#[derive(Validate)]
pub struct Desk {
    #[garde(range(max = 9))]
    pub floor: u8,
}
