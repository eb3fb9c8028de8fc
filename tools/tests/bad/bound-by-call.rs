use garde::Validate;

#[derive(Validate)]
pub struct Bad {
    #[garde(length(max = most()))] //~ a bound that the port cannot read, from `(` on
    pub name: String,
}
