use garde::Validate;

#[derive(Validate)]
pub struct Bad { //~ `{` is not closed
    #[garde(ascii)]
    pub name: String,
