use garde::Validate;

#[derive(Validate)]
pub struct Bad {
    #[garde(ascii, credit_card)] //~ the rule `credit_card` is not ported: give the number a type of its own that implements `CreditCard`, as docs/guide/own-rules.md#cards-and-phones has it
    pub name: String,
}
