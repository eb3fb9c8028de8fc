use garde::Validate;

#[derive(Validate)]
pub struct Bad {
    #[garde(dive(other))] //~ `dive` with a context that is no part of `ctx`
    pub name: Part,
}
