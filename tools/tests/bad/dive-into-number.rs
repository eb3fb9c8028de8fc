use garde::Validate;

#[derive(Validate)]
pub struct Bad {
    #[garde(dive)] //~ `dive` into the type `u8`
    pub name: u8,
}
