use garde::Validate;

#[derive(Validate)]
#[garde(transparent)]
pub enum Bad { //~ `transparent` of an enum
    One(#[garde(ascii)] String),
}
