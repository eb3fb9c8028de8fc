//! New types, tuples, a type with a parameter, and a unit.
use garde::Validate;

/// A name that adds no component.
#[derive(Validate)]
#[garde(transparent)]
pub struct Nickname(#[garde(length(min = 3))] pub String);

/// A code, of which both rules are asked where it stands.
#[derive(Validate)]
#[garde(transparent)]
pub struct Code {
    #[garde(ascii, length(max = 4))]
    pub text: String,
}

/// A name under the index of its field.
#[derive(Validate)]
pub struct Numbered(#[garde(length(min = 3))] pub String);

/// Three values under their indexes, but for the second.
#[derive(Validate)]
pub struct Triple(#[garde(ascii)] pub String, #[garde(skip)] pub u8, #[garde(range(max = 9))] pub u8);

/// A value that validates itself.
#[derive(Validate)]
pub struct Holder<T: Validate> {
    #[garde(dive)]
    pub value: T,
    #[garde(length(min = 1))]
    pub label: String,
}

/// Values of one type, each in its own box.
#[derive(Validate)]
#[garde(transparent)]
pub struct Boxes<T: Validate>(#[garde(dive)] pub Vec<Box<T>>);

/// Nothing.
#[derive(Clone, Copy, Validate)]
pub struct Nothing;
