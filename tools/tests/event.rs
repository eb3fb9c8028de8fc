//! An enum, each variant with rules of its own.
use garde::Validate;

/// What happens.
#[derive(Validate)]
pub enum Event {
    /// A number under its name.
    Move {
        #[garde(range(min = -10, max = 10))]
        steps: i32,
    },
    /// A text and its sender, of whom nothing is asked.
    Say {
        #[garde(ascii, length(min = 1))]
        text: String,
        #[garde(skip)]
        sender: u64,
        #[garde(length(max = 3))]
        report: String,
    },
    /// A number under its index.
    Wait(#[garde(range(max = 60))] u8),
    /// Two texts, each under its index.
    Pair(#[garde(ascii)] String, #[garde(length(min = 2))] String),
    /// Nothing is asked.
    Stop,
    /// Nothing is asked of it either.
    Mark(#[garde(skip)] u8),
}
