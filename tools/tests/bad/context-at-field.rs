use garde::Validate;

#[derive(Validate)]
pub struct Bad {
    #[garde(context(Limits), ascii)]
    pub name: String, //~ an attribute of types at a field
}
