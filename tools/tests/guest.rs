//! Options: rules of what they hold, and the rule that they hold something.
use garde::Validate;

/// Who comes.
#[derive(Validate)]
pub struct Guest {
    #[garde(required, range(min = 18, max = 120))]
    pub age: Option<u8>,
    #[garde(ascii, length(min = 2), required)]
    pub nickname: Option<String>,
    #[garde(url)]
    pub site: Option<String>,
    #[garde(inner(ascii))]
    pub motto: Option<String>,
    #[garde(length(max = 2), inner(inner(range(max = 9))))]
    pub seats: Option<Vec<Option<u8>>>,
}
