//! A catalog: forms that the sources with proved outputs do not have.
//@ --schema --leave-out Serialize
use garde::Validate;
use serde::{Deserialize, Serialize};
use std::collections::{BTreeMap, HashMap};

/// How it is sold.
#[derive(Debug, Deserialize, Serialize, Validate)]
#[serde(tag = "by", content = "of", deny_unknown_fields)]
pub enum Sale {
    Piece {
        #[garde(range(min = 1))]
        cents: u32,
        #[garde(skip)]
        #[serde(default)]
        is_last: bool,
    },
    Weight(#[garde(range(max = 9000))] u16),
}

/// How it is packed.
#[derive(Debug, Deserialize, Validate)]
#[serde(tag = "kind", deny_unknown_fields)]
pub enum Pack {
    Box {
        #[garde(range(max = 9))]
        layers: u8,
    },
    Bag,
}

/// A size without texts.
#[derive(Clone, Copy, Debug, PartialEq, Deserialize)]
#[serde(default)]
pub struct Size {
    pub high: u16,
    #[serde(rename(deserialize = "w", serialize = "width"))]
    pub wide: u16,
}

impl Default for Size {
    fn default() -> Self {
        Size { high: 3, wide: Self::WIDE }
    }
}

impl Size {
    const WIDE: u16 = u8::MAX as u16 + 1;
}

/// A note.
#[derive(Debug, PartialEq, Deserialize)]
pub struct Note<'a> {
    #[serde(borrow)]
    pub text: &'a str,
    pub stars: Option<u8>,
}

/// An article.
#[derive(Debug, Deserialize, Validate)]
#[serde(rename_all = "SCREAMING-KEBAB-CASE")]
pub struct Article {
    #[garde(length(graphemes, max = 20), custom(is_listed))]
    pub short_name: String,
    #[garde(inner(inner(ascii)), length(max = 3))]
    pub rows: Vec<Vec<String>>,
    #[garde(inner(length(max = 4)))]
    pub marks: Vec<Option<String>>,
    #[garde(custom(|value, _| Ok(())))]
    #[serde(default)]
    pub is_new: bool,
    #[garde(dive)]
    pub sale: Sale,
    #[garde(dive)]
    pub others: Vec<Sale>,
}

/// A sum of money.
#[derive(Clone, Copy, Debug, Deserialize, Validate)]
#[serde(transparent)]
pub struct Cents {
    #[serde(rename = "value")]
    #[garde(range(max = 100_000))]
    pub cents: u32,
}

/// A catalog.
#[derive(Debug, Deserialize, Validate)]
pub struct Catalog {
    #[garde(inner(dive))]
    pub articles: Option<Vec<Article>>,
    #[garde(skip)]
    pub size: Size,
    #[garde(skip)]
    pub sizes: HashMap<String, Size>,
    #[garde(skip)]
    pub notes: BTreeMap<String, Vec<u8>>,
    #[garde(skip)]
    #[serde(default)]
    pub title: String,
    #[garde(dive)]
    pub deposit: Cents,
}

fn is_listed(value: &str, _: &()) -> garde::Result {
    Ok(())
}
