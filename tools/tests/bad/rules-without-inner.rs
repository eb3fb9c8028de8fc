//! Rules of items at their list, and a rule of this port that is no attribute by itself.
use garde::Validate;

#[derive(Validate)]
pub struct Bag {
    #[garde(ascii)] //~ `ascii` of the type `Vec<String>`, which is no text: write `inner(ascii)` for its items
    pub tags: Vec<String>,
    #[garde(unique)] //~ the attribute `unique` is not known: write `custom(unique)`
    pub seats: Vec<u8>,
    #[garde(byte_length(max = 3))] //~ the attribute `byte_length` is not known: did you mean `length`?
    pub name: String,
}
