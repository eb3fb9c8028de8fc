use garde::Validate;

#[derive(Validate)]
pub struct Bad {
    #[garde(dive)] //~ `dive` of `Bad` into itself: such a type is walked by a function of its own
    pub name: Vec<Bad>,
}
