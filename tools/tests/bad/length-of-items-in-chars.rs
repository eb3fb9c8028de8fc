use garde::Validate;

#[derive(Validate)]
pub struct Bad {
    #[garde(length(chars, min = 3))] //~ the length in `chars` of the type `Vec<char>`, which the port does not know: of a number write `range`, of others a rule of your own, by `custom`
    pub name: Vec<char>,
}
