use garde::Validate;

#[derive(Validate)]
pub enum Bad {
    #[garde(skip)]
    One(#[garde(ascii)] String), //~ an attribute at the variant `One`: attributes stand at types and at fields
}
