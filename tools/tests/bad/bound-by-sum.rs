use garde::Validate;

#[derive(Validate)]
pub struct Bad {
    #[garde(length(max = 9 / 2))] //~ a bound that the port cannot read: it reads numbers and fields of `self` and of the context
    pub name: String,
}
