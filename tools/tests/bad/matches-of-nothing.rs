use garde::Validate;

#[derive(Validate)]
pub struct Bad {
    #[garde(matches(password))] //~ `matches` of the field `password`, which is not there
    pub name: String,
}
