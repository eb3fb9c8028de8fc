use garde::Validate;

const MOST: u8 = most();

#[derive(Validate)]
pub struct Bad {
    #[garde(email, ascii)] //~ the rule `email` is not ported: write `pattern("^[^@]+@[^@]+$")` with the pattern that you want, or a rule of your own, by `custom`
    pub name: String,
    #[garde(ascii)] //~ `ascii` of the type `u8`, which is no text: write a rule of your own, by `custom`
    pub age: u8,
    pub left: u8, //~ the field `left` has no rule: write `#[garde(skip)]`
    #[garde(range(max = MOST))] //~ the port cannot read `MOST`: it reads fields of `self` and of the context
    pub most: u8,
}

#[derive(Validate)]
pub struct Worse {
    #[garde(contains("\\"))] //~ a text with a quote or a backslash in it
    pub name: String,
}
