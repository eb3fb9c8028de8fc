//! An account: texts under the rules of texts, and one that is given twice.
use garde::Validate;

/// Who has an account.
#[derive(Validate)]
pub struct Account {
    #[garde(ascii, length(min = 3, max = 25))]
    pub username: String,
    /// At least 15 bytes.
    #[garde(length(min = 15))]
    pub password: String,
    #[garde(matches(password))]
    pub again: String,
    #[garde(alphanumeric, length(chars, max = 8))]
    pub code: String,
    #[garde(skip)]
    pub remember: bool,
}
