use garde::Validate;

#[derive(Validate)]
pub struct Part {
    #[garde(pattern("a+"))]
    pub name: String,
}

#[derive(Validate)]
pub struct Bad {
    #[garde(dive)] //~ `dive` into `Part`, whose patterns make a context of it: give both types a context with compiled patterns
    pub part: Part,
}
