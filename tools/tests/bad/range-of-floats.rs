use garde::Validate;

#[derive(Validate)]
pub struct Bad {
    #[garde(range(min = 1))] //~ `range` of the type `f64`: there are no bounds of floating-point numbers here
    pub name: f64,
}
