//! Types that are none of std, whatever they are called, and names of types that stand for none.
//@ --schema
use crate::orders::Line as OldLine;
use garde::Validate;
use heapless::String as Short;
use heapless::Vec;
use my_types::*; //~ the import `my_types::*`, which may bring types of any name: import each type by its name
use chrono::prelude::*;
use serde::Deserialize;

type Loop = Option<Loop>; //~ the type `Loop`, another name of a type, which stands for itself: write the type itself
#[cfg(unix)]
type Number = u8;
type Call = fn(u8) -> u8;
type Pair<A, B> = Option<Two<A, B>>;

#[derive(Deserialize, Validate)]
pub struct Order {
    #[garde(ascii)]
    pub short: Short, //~ the type `heapless::String`, which no form of `--schema` reads: see docs/guide/attributes.md#types-that-no-form-reads
    #[garde(skip)]
    pub list: Vec<u8, 4>, //~ the type `heapless::Vec`, which no form of `--schema` reads: see docs/guide/attributes.md#types-that-no-form-reads
    #[garde(skip)]
    pub text: my_types::String, //~ the type `my_types::String`, which no form of `--schema` reads: see docs/guide/attributes.md#types-that-no-form-reads
    #[garde(skip)]
    pub lasts: my_types::Duration, //~ the type `my_types::Duration`, which no form of `--schema` reads: see docs/guide/attributes.md#types-that-no-form-reads
    #[garde(skip)]
    pub map: std::collections::HashMap<std::string::String, self::Line>,
    #[garde(skip)]
    pub old: OldLine, //~ the type `crate::orders::Line`, which no form of `--schema` reads: see docs/guide/attributes.md#types-that-no-form-reads
    #[garde(skip)]
    pub older: super::Line, //~ the type `super::Line`, which no form of `--schema` reads: see docs/guide/attributes.md#types-that-no-form-reads
    #[garde(skip)]
    pub line: Line,
    #[garde(skip)]
    pub around: Loop,
    #[garde(skip)]
    pub number: Number, //~ the type `Number`, which stands under a condition of the build: write the type itself
    #[garde(skip)]
    pub call: Call, //~ the type `Call`, which cannot be read: a type that begins with `fn`: write the type itself
    #[garde(skip)]
    pub one: Pair<u8>, //~ the type `Pair` with 1 arguments, which has 2
    #[garde(skip)]
    pub two: Pair<u8, bool>,
    #[garde(skip)]
    pub three: Two<u8>, //~ the type `Two` with 1 arguments, which has 2 parameters
    #[garde(skip)]
    pub own: ByHand, //~ the type `ByHand`, which no form of `--schema` reads: see docs/guide/attributes.md#types-that-no-form-reads
    #[garde(skip)]
    #[serde_as(as = "DisplayFromStr")] //~ the attribute `serde_as`, which changes what a field is read of: see docs/guide/attributes.md#types-that-no-form-reads
    pub shown: u8,
}

#[derive(Deserialize)]
pub struct Line {
    pub count: u8,
}

#[derive(Deserialize)]
pub struct Two<A, B> {
    pub one: A,
    pub two: B,
}

pub struct ByHand<T: Clone = u8>
where
    T: Copy,
{
    pub call: Box<dyn Fn(T)>,
}
