use garde::Validate;

#[derive(Validate)]
pub struct Bad {
    #[garde(required)] //~ `required` of a value that is no `Option`
    pub name: String,
}
