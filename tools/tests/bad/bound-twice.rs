use garde::Validate;

#[derive(Validate)]
pub struct Bad {
    #[garde(length(min = 3, min = 2))] //~ `length` with `min`, which is not read there
    pub name: String,
}
