use garde::Validate;

#[cfg(feature = "long")]
const MOST: usize = 80;

#[derive(Validate)]
pub struct Bad {
    #[garde(length(max = MOST))] //~ the port cannot read `MOST`: it reads fields of `self` and of the context
    pub name: String,
}
