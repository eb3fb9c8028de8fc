use garde::Validate;

#[derive(Validate)]
pub struct Bad {
    #[garde(uppercase)] //~ the attribute `uppercase` is not known
    pub name: String,
}
