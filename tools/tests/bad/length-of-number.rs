use garde::Validate;

#[derive(Validate)]
pub struct Bad {
    #[garde(length(min = 3))] //~ the length of the type `u8`, which the port does not know: of a number write `range`, of others a rule of your own, by `custom`
    pub name: u8,
}
