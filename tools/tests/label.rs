//! Texts that are borrowed.
use garde::Validate;
use std::borrow::Cow;

/// A label.
#[derive(Validate)]
pub struct Label<'a> {
    #[garde(ascii, length(min = 1, max = 9))]
    pub name: &'a str,
    #[garde(length(max = 2), inner(prefix("b"), length(chars, max = 2)))]
    pub also: &'a [&'a str],
    #[garde(contains("-"), length(graphemes, min = 2))]
    pub code: Option<&'a str>,
    #[garde(alphanumeric)]
    pub text: Cow<'a, str>,
    #[garde(custom(is_short))]
    pub mark: &'a str,
}

fn is_short(value: &str, _ctx: &()) -> garde::Result {
    match value.len() {
        0..=4 => Ok(()),
        _ => Err(garde::Error::new("not short")),
    }
}
