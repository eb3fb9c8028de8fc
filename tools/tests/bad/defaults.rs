//! Defaults that are no constants, and defaults that their rules do not hold for.
//@ --spelled Whole
use garde::Validate;
use serde::Deserialize;

const LONG: &str = "a text of thirty characters...";
const NEXT: u8 = NEXT + 1;

#[derive(Deserialize, Validate)]
pub struct Whole {
    #[garde(skip)]
    #[serde(default = "tags")] //~ the default of the field `tags`: memory is needed for a list with items: write a constant, or read an `Option` and fill it in by your code
    pub tags: Vec<u8>,
    #[garde(skip)]
    #[serde(default = "elsewhere::port")] //~ the default of the field `port`: the function `elsewhere::port`, which does not stand in this file: write a constant, or read an `Option` and fill it in by your code
    pub port: u16,
    #[garde(skip)]
    #[serde(default = "next")] //~ the default of the field `next`: `NEXT` asks for itself: write a constant, or read an `Option` and fill it in by your code
    pub next: u8,
    #[garde(skip)]
    #[serde(default = "far")] //~ the default of the field `far`: 300 is no `u8`: write a constant, or read an `Option` and fill it in by your code
    pub far: u8,
    #[garde(skip)]
    #[serde(default = "built")] //~ the default of the field `built`: `built` takes arguments, stands under a condition, or is there twice: write a constant, or read an `Option` and fill it in by your code
    pub built: u8,
    #[garde(skip)]
    #[serde(default = "loud")] //~ the default of the field `loud`: the method `to_uppercase` is not read: write a constant, or read an `Option` and fill it in by your code
    pub loud: String,
    #[garde(skip)]
    #[serde(default = "sum")] //~ the default of the field `sum`: `let` is no constant of this file: write a constant, or read an `Option` and fill it in by your code
    pub sum: u8,
    #[garde(dive)]
    #[serde(default)] //~ the default of the field `part`: `Part` neither derives `Default` nor has an `impl Default` in this file: write a constant, or read an `Option` and fill it in by your code
    pub part: Part,
    #[garde(dive)]
    #[serde(default)] //~ the default of the field `half`: `Half` lacks its field `b`: write a constant, or read an `Option` and fill it in by your code
    pub half: Half,
    #[garde(range(min = 5))]
    #[serde(default)]
    pub few: u8, //~ the default of the field `few`: 0 breaks `range(min = 5)`: give another default, or read an `Option`
    #[garde(length(chars, max = 29))]
    #[serde(default = "long")]
    pub long: String, //~ the default of the field `long`: "a text of thirty characters..." breaks `length(chars, max = 29)`: give another default, or read an `Option`
    #[garde(length(min = 1))]
    #[serde(skip)]
    pub none: Vec<u8>, //~ the default of the field `none`: empty breaks `length(min = 1)`: give another default, or read an `Option`
    #[garde(required)]
    #[serde(skip)]
    pub not: Option<u8>, //~ the default of the field `not`: `None` breaks `required`: give another default, or read an `Option`
    #[garde(prefix("b"), ascii)]
    #[serde(default = "long")]
    pub text: String, //~ the default of the field `text`: "a text of thirty characters..." breaks `prefix("b")`: give another default, or read an `Option`
    #[garde(custom(multiple_of(7)))]
    #[serde(default = "four")]
    pub four: u8, //~ the default of the field `four`: 4 breaks `multiple_of(7)`: give another default, or read an `Option`
    #[garde(url)]
    #[serde(default)]
    pub site: String, //~ the default of the field `site`: "" breaks `url`: give another default, or read an `Option`
    #[garde(custom(asks("please accept the terms", value)))]
    #[serde(default)]
    pub accepted: bool, //~ the default of the field `accepted`: false breaks "please accept the terms": give another default, or read an `Option`
    #[garde(custom(asks("any other", value != MOST && (value > 9 || value == self.few))), custom(asks("a fifth", value % 5 == 0)))]
    #[serde(default = "four")]
    pub other: u8,
    #[garde(custom(asks("a long one", value.len() > 40 || value == "none")))]
    #[serde(default = "long")]
    pub wide: String, //~ the default of the field `wide`: "a text of thirty characters..." breaks "a long one": give another default, or read an `Option`
    #[garde(dive)]
    #[serde(default)]
    pub set: Set, //~ the default of the field `set`: 9 breaks `range(max = 8)`: give another default, or read an `Option`
}

#[derive(Deserialize, Validate)]
pub struct Part {
    #[garde(skip)]
    pub a: u8,
}

#[derive(Deserialize, Validate)]
pub struct Half {
    #[garde(skip)]
    pub a: u8,
    #[garde(skip)]
    pub b: u8,
}

impl Default for Half {
    fn default() -> Self {
        Half { a: 1 }
    }
}

#[derive(Deserialize, Validate)]
pub struct Set {
    #[garde(inner(range(max = MOST)))]
    #[serde(default = "Set::nine")]
    pub a: Option<u8>, //~ the default of the field `a`: 9 breaks `range(max = 8)`: give another default, or read an `Option`
}

const MOST: u8 = 8;

impl Set {
    fn nine() -> Option<u8> {
        Some(9)
    }
}

impl Default for Set {
    fn default() -> Self {
        Set { a: Set::nine() }
    }
}

fn tags() -> Vec<u8> { vec![1, 2] }

fn next() -> u8 { NEXT }

fn far() -> u8 { 100 * 3 }

#[cfg(unix)]
fn built() -> u8 { 1 }

#[cfg(not(unix))]
fn built() -> u8 { 2 }

fn loud() -> String { LONG.to_uppercase() }

fn sum() -> u8 { let one = 1; one }

fn long() -> String { LONG.into() }

fn four() -> u8 { (1028 as u8) }
