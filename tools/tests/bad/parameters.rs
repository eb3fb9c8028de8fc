//! Types with parameters that no use gives a type for.
//@ --spelled Page
use garde::Validate;
use serde::Deserialize;

#[derive(Deserialize, Validate)]
pub struct Page<T> { //~ `Page` has the parameter `T` and no use at which that is a type: write `type NAME = Page<..>;` with what it holds, and say `--spelled NAME`
    #[garde(skip)]
    pub items: Vec<T>,
}

#[derive(Deserialize, Validate)]
pub struct Chain<T> {
    #[garde(skip)]
    pub value: T,
    #[garde(skip)]
    pub next: Vec<Chain<Vec<T>>>, //~ the type `Chain` in itself with ever other arguments
}

#[derive(Deserialize, Validate)]
pub struct Held {
    #[garde(skip)]
    pub chain: Chain<u8>,
    #[garde(skip)]
    pub few: Chain, //~ the type `Chain` with 0 arguments, which has 1 parameters
}
