use garde::Validate;

#[derive(Validate)]
pub struct Bad {
    #[garde(length(max = MOST))] //~ the port cannot read `MOST`: it reads fields of `self` and of the context
    pub name: String,
}
