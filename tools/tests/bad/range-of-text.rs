use garde::Validate;

#[derive(Validate)]
pub struct Bad {
    #[garde(range(min = 1))] //~ `range` of the type `String`: there are no bounds here
    pub name: String,
}
