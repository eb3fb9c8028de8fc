use garde::Validate;

#[derive(Validate)]
pub struct Bad {
    #[garde(length(min = 3, max = 2))] //~ the `min` of `length` is greater than its `max`
    pub name: String,
}
