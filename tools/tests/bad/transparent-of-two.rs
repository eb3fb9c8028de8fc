use garde::Validate;

#[derive(Validate)]
#[garde(transparent)]
pub struct Bad(#[garde(ascii)] pub String, #[garde(skip)] pub u8); //~ `transparent` of a type that has not just one field
