//! Your own rules that cannot be ported.
//@ --spelled Stay --own crate::own
use garde::Validate;
use serde::Deserialize;

/// The name of what a rule becomes.
#[derive(Debug, Deserialize, Validate)]
pub struct StayNightsRule {
    #[garde(skip)]
    pub nights: u8,
}

#[derive(Debug, Deserialize, Validate)]
pub struct Stay {
    #[garde(skip)]
    pub from: u16,
    #[garde(custom(|until, _| { let nights = until - self.from; if nights > 0 { Ok(()) } else { Err(garde::Error::new("too short")) } }))] //~ a closure that names `self`: a rule that is written by hand gets the value of its field alone, so write `if CONDITION { Ok(()) } else { Err(garde::Error::new("..")) }`, with a condition as that of `if` (`if` is expected in place of `let`)
    pub until: u16,
    #[garde(custom(|value: &u16, _: &()| is_near(*value, self.from)))] //~ a closure that names `self`: a rule that is written by hand gets the value of its field alone, so write `if CONDITION { Ok(()) } else { Err(garde::Error::new("..")) }`, with a condition as that of `if` (`if` is expected in place of `is_near`)
    pub back: u16,
    #[garde(custom(asks(value > 3)))] //~ a text in quotes is expected in place of `value`
    pub some: u8,
    #[garde(custom(asks("too few")))] //~ `,` is expected in place of `)`
    pub more: u8,
    #[garde(custom(asks("too few", value - 1 > 3)))] //~ a sum or a product that the port cannot read: write what is added on the other side
    pub sum: u8,
    #[garde(custom(asks("not even", value % 0 == 0)))] //~ `%` by what is no number from 1 on
    pub even: u8,
    #[garde(custom(asks("below", value < self.from)))] //~ a comparison of a number with a sign and one without, or of a sum of such: compare numbers of one type
    pub least: i8,
    #[garde(custom(asks("short", value.len() > 3)))] //~ `len` of `value`, which is neither a text nor a list nor a map that a form reads
    pub short: u8,
    #[garde(custom(asks("not there", value.end > 3)), dive)] //~ `value.end`, which is no field of a struct of this file
    pub part: StayNightsRule,
    #[garde(custom(asks("no nights", value > 3)))] //~ a rule of your own, which is a type `StayNightsRule`: give that of the file another name
    pub nights: u8,
    #[garde(custom(asks("a \"quote\"", value > 3)))] //~ a text with a quote or a backslash in it
    pub quoted: u8,
    #[garde(custom(asks("the wrong one", other > 3)))] //~ the port cannot read `other`: it reads fields of `self` and of the context
    pub wrong: u8,
}
