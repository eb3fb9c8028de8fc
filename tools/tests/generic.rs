//! Types with parameters.
use garde::Validate;

/// Two parts under one context.
#[derive(Validate)]
pub struct Couple<A: Validate, B: Validate> {
    #[garde(dive)]
    pub left: A,
    #[garde(dive)]
    pub right: Vec<B>,
}

/// A part that has no context.
#[derive(Validate)]
pub struct Plain<T: Validate<Context = ()>> {
    #[garde(dive)]
    pub part: Option<T>,
}

/// A part, a name that is borrowed, or neither.
#[derive(Validate)]
pub enum Choice<'a, T: Validate> {
    Part(#[garde(dive)] T),
    Name {
        #[garde(ascii)]
        name: &'a str,
    },
    Neither,
}

/// Cells of one digit.
#[derive(Validate)]
pub struct Grid<const N: usize> {
    #[garde(inner(range(max = 9)))]
    pub cells: [u8; N],
}

/// A value of which nothing is asked, and its label.
#[derive(Validate)]
pub struct Labelled<T> {
    #[garde(skip)]
    pub value: T,
    #[garde(ascii)]
    pub label: String,
}
