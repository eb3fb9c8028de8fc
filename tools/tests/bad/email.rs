use garde::Validate;

#[derive(Validate)]
pub struct Bad {
    #[garde(email)] //~ the rule `email` is not ported: write `pattern("^[^@]+@[^@]+$")` with the pattern that you want, or a rule of your own, by `custom`
    pub name: String,
}
