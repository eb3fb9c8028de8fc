use garde::Validate;

#[derive(Validate)]
pub struct Bad {
    #[garde(range(min = 0.5))] //~ the floating-point number `0.5`
    pub name: u8,
}
