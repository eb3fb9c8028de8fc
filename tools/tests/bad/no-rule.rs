use garde::Validate;

#[derive(Validate)]
pub struct Bad {
    pub name: String, //~ the field `name` has no rule: write `#[garde(skip)]`
}
