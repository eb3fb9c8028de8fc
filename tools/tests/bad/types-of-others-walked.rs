//! The same of types with a walk, whose fields keep the types that they name.
use garde::Validate;
use heapless::Vec;
use std::vec::Vec as List;

type Names = List<String>;

#[derive(Validate)]
pub struct Order {
    #[garde(length(max = 3))] //~ the length of the type `Vec<u8, 4>`, which the port does not know: of a number write `range`, of others a rule of your own, by `custom`
    pub list: Vec<u8, 4>,
    #[garde(length(max = 3), inner(ascii))]
    pub names: Names,
    #[garde(ascii)] //~ `ascii` of the type `my_types::String`, which is no text: write a rule of your own, by `custom`
    pub text: my_types::String,
}
