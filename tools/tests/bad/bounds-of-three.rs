use garde::Validate;

#[derive(Validate)]
pub struct Bad {
    #[garde(range(min = 1, equal = 3))] //~ `range` wants `min`, `max` or both, or `equal` alone
    pub name: u8,
}
