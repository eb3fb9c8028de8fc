use garde::Validate;

#[derive(Validate)]
pub struct Bad {
    #[garde(length(chars))] //~ `length` wants `min`, `max` or both, or `equal` alone
    pub name: String,
}
