use garde::Validate;

#[derive(Validate)]
pub struct Bad {
    #[garde(custom(is_equal(&self.other)))] //~ `custom` wants a path or a closure, and `(` stands there
    pub name: String,
    #[garde(skip)]
    pub other: String,
}
