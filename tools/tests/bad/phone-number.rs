use garde::Validate;

#[derive(Validate)]
pub struct Bad {
    #[garde(phone_number)] //~ the rule `phone_number` is not ported: give the number a type of its own that implements `PhoneNumber`, as docs/guide/own-rules.md#cards-and-phones has it
    pub name: String,
}
