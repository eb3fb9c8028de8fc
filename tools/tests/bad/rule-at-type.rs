use garde::Validate;

#[derive(Validate)]
#[garde(ascii)]
pub struct Bad(#[garde(ascii)] pub String); //~ `Bad` has an attribute that stands at fields alone
