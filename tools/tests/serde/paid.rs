//! How something was paid: variants whose fields ask of one another.
//@ --schema --no-walk
use garde::Validate;
use serde::Deserialize;

/// How it was paid.
#[derive(Debug, Deserialize, Validate)]
#[serde(tag = "by", rename_all = "lowercase", deny_unknown_fields)]
pub enum Paid {
    Card {
        #[garde(length(chars, equal = 4))]
        number: String,
        #[garde(matches(number))]
        again: String,
        #[garde(skip)]
        value: u8,
    },
    Bill {
        #[garde(if(cond = self.days > 3, required))]
        to: Option<String>,
        #[garde(skip)]
        days: u8,
    },
    Cash,
}
