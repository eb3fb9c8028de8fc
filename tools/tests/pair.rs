//! Fields that are given twice: texts that may be missing, and numbers.
use garde::Validate;

/// Who changes an account.
#[derive(Validate)]
pub struct Pair {
    #[garde(length(max = 80))]
    pub mail: Option<String>,
    #[garde(matches(mail))]
    pub mail_again: Option<String>,
    #[garde(range(min = 1000, max = 9999))]
    pub pin: u32,
    #[garde(matches(pin))]
    pub pin_again: u32,
}
