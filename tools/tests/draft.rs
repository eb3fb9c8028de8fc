//! Fields without an attribute, where the type allows them, and names that stand for something else in an implementation.
use garde::Validate;

/// A draft.
#[derive(Clone, PartialEq, Validate)]
#[garde(allow_unvalidated)]
pub struct Draft {
    #[garde(length(min = 1))]
    pub report: String,
    pub trail: u8,
    #[garde(range(max = 9))]
    pub h: u8,
}
