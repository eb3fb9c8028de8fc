//! Types by their paths: other names, holders, and types with parameters.
//@ --spelled Orders
use garde::Validate;
use serde::Deserialize;
use std::collections::{self, HashMap as Map, VecDeque};
use std::sync::Arc;

/// A text of some lines.
type Lines<T> = Vec<T>;
type Name = Box<str>;
/// The page that is read.
pub type Orders = Page<Order, 2>;

/// A page of what is asked for.
#[derive(Debug, Deserialize, Validate)]
pub struct Page<T, const N: usize = 3>
where
    T: Clone,
{
    #[garde(length(max = 2), dive)]
    pub items: Vec<T>,
    #[garde(skip)]
    pub next: Arc<Link<String>>,
}

/// Where more is.
#[derive(Debug, Deserialize)]
pub struct Link<T> {
    pub to: Option<T>,
}

/// An order.
#[derive(Debug, Deserialize, Validate)]
#[serde(bound = "", expecting = "an order")]
pub struct Order {
    #[garde(ascii)]
    pub name: Name,
    #[garde(length(min = 1), inner(range(min = 1)))]
    pub counts: Lines<u16>,
    #[garde(inner(range(max = 9)))]
    pub marks: VecDeque<u8>,
    #[garde(length(max = 4), inner(ascii))]
    pub notes: Map<String, std::borrow::Cow<'static, str>>,
    #[garde(skip)]
    pub flags: collections::BTreeMap<Name, bool>,
    #[garde(skip)]
    pub page: Link<u8>,
}
