//! Rules that the Rust crate does not have, where they are not asked.
use garde::Validate;
use std::collections::{BTreeMap, BTreeSet};

#[derive(Clone, Copy)]
pub enum Kind {
    One,
    Two,
}

#[derive(Validate)]
pub struct Bad {
    #[garde(custom(unique))] //~ `unique` of the type `String`: it is written of lists of texts, of numbers and of types of this file that derive `PartialEq`; of others write `custom(unique_by(..))`, or a rule of your own, by `custom`
    pub name: String,
    #[garde(custom(unique))] //~ `unique` of the type `Vec<Kind>`: it is written of lists of texts, of numbers and of types of this file that derive `PartialEq`; of others write `custom(unique_by(..))`, or a rule of your own, by `custom`
    pub kinds: Vec<Kind>,
    #[garde(custom(unique(3)))] //~ a text in quotes is expected in place of `3`
    pub parts: Vec<u8>,
    #[garde(custom(unique("a", "b")))] //~ `unique` with more than the port reads, from `,` on
    pub pairs: Vec<u8>,
    #[garde(custom(unique("a"), ascii))] //~ `unique` with more than the port reads, from `,` on
    pub both: Vec<u8>,
    #[garde(custom(keys(ascii)))] //~ `keys` of the type `BTreeMap<String, u8>`: it is asked of maps that are read by `--schema --no-walk` or `--spelled`
    pub map: BTreeMap<String, u8>,
    #[garde(custom(keys))] //~ `keys` without its argument
    pub set: BTreeSet<String>,
    #[garde(custom(multiple_of(0)))] //~ `multiple_of` of what is no number from 1 on
    pub none: u8,
    #[garde(custom(multiple_of(300)))] //~ the bound 300, which is no `u8`
    pub many: u8,
    #[garde(custom(multiple_of(2)))] //~ `multiple_of` of the type `bool`, which is no whole number
    pub flag: bool,
    #[garde(custom(multiple_of()))] //~ an expression that the port cannot read, at `)`
    pub empty: u8,
    #[garde(if(cond = matches!(self.kind, Kind::Three), range(max = 3)))] //~ `Kind::Three`, which is no variant of `Kind`
    pub three: u8,
    #[garde(if(cond = matches!(self.kind, Other::One), range(max = 3)))] //~ `Other::One`, which is no variant of `Kind`
    pub other: u8,
    #[garde(if(cond = matches!(self.flag, Kind::One), range(max = 3)))] //~ a condition on `self.flag`, which is no enum of this file
    pub wrong: u8,
    #[garde(if(cond = matches!(self.kind), range(max = 3)))] //~ `,` is expected in place of `)`
    pub alone: u8,
    #[garde(if(cond = matches!(self.kind, Kind::One(3)), range(max = 3)))] //~ a pattern of a variant with more than `..` in it
    pub deep: u8,
    #[garde(if(cond = matches!(self.kind, Kind::One if true), range(max = 3)))] //~ `matches!` of what is no field and variants, as `matches!(self.kind, Kind::One | Kind::Two)`
    pub guard: u8,
    #[garde(if(cond = self.flag == "x", range(max = 3)))] //~ a comparison of `self.flag` with a text, which is neither a `String` nor a `&str` nor read by a form
    pub text: u8,
    #[garde(if(cond = self.name.contains(3), range(max = 3)))] //~ `contains` of `self.name`: it is written of texts and lists of texts that a form reads, and of lists of numbers without a sign
    pub number: u8,
    #[garde(if(cond = self.set.contains("x"), range(max = 3)))] //~ `contains` of `self.set`: it is written of texts and lists of texts that a form reads, and of lists of numbers without a sign
    pub within: u8,
    #[garde(if(cond = self.name.contains(self.name), range(max = 3)))] //~ `contains` of what is neither a text in quotes nor a number nor a variant, as `&Event::Payment`
    pub itself: u8,
    #[garde(skip)]
    pub kind: Kind,
    #[garde(range(max = u8::MOST))] //~ a bound that the port cannot read: it reads numbers and fields of `self` and of the context
    pub most: u8,
    #[garde(range(min = -LOW))] //~ a bound that the port cannot read: it reads numbers and fields of `self` and of the context
    pub low: i8,
}
