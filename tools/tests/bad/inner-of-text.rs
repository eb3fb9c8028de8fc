use garde::Validate;

#[derive(Validate)]
pub struct Bad {
    #[garde(inner(ascii))] //~ `inner` of the type `String`, whose items the port does not know
    pub name: String,
}
