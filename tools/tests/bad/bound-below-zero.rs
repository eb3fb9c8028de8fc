use garde::Validate;

#[derive(Validate)]
pub struct Bad {
    #[garde(range(min = -1))] //~ the bound -1 of what has no sign
    pub name: u8,
}
