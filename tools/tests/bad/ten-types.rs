//! Ten types of a service, each with mistakes.
use garde::{Validate, Valid};
use serde::{Serialize, Deserialize};
use std::collections::{BTreeMap, HashMap, BTreeSet};
use std::sync::Arc;
use chrono::{DateTime, Utc};
use uuid::Uuid;

pub type Names = Vec<String>;

const MAX: usize = ten() * 3;
static WORDS: [&str; 2] = ["a", "b"];

/// One: a user.
#[derive(Debug, Clone, Serialize, Deserialize, Validate)]
#[serde(rename_all = "camelCase")]
pub struct User {
    #[garde(length(min = 3, max = 2))] //~ the `min` of `length` is greater than its `max`
    pub name: String,
    #[garde(email)] //~ the rule `email` is not ported: write `pattern("^[^@]+@[^@]+$")` with the pattern that you want, or a rule of your own, by `custom`
    pub mail: Option<String>,
    #[garde(range(min = 0, max = 300))] //~ the bound 300, which is no `u8`
    pub age: u8,
    #[garde(pattern(r"^\d+$"))]
    pub code: String,
    #[garde(skip)]
    pub created: DateTime<Utc>,
    pub forgotten: u8, //~ the field `forgotten` has no rule: write `#[garde(skip)]`
    #[garde(dive)] //~ `dive` into `Address`, whose context is `Rules`, with the context `()`: name a part of the context of that type, as `dive(ctx.FIELD)`
    pub address: Address,
}

/// Two.
#[derive(Debug, Clone, Serialize, Deserialize, Validate)]
#[garde(context(Rules as ctx))]
pub struct Address {
    #[garde(pattern("a+"), length(max = ctx.most))] //~ a pattern in quotes under a context of one's own: add a field of type `Regex` to it, and write `pattern(ctx.FIELD)`
    pub street: String,
    #[garde(length(graphemes, min = 1), custom(is_town(&self.street)))] //~ `custom` wants a path or a closure, and `(` stands there
    pub town: String,
    #[garde(inner(inner(ascii)))]
    pub lines: Vec<Names>,
    #[garde(required, inner(length(max = MAX)))] //~ the port cannot read `MAX`: it reads fields of `self` and of the context
    pub zip: Option<String>,
}

pub struct Rules { pub most: usize }

/// Three.
#[derive(Validate)]
pub enum Event {
    Login { #[garde(ascii)] user: String, #[garde(ip)] from: std::net::IpAddr }, //~ `ip` of the type `IpAddr`, which is no text: write a rule of your own, by `custom`
    Logout(#[garde(dive)] User, #[garde(skip)] u8), //~ `dive` into `User`, whose patterns make a context of it: give both types a context with compiled patterns
    Code = 3, //~ the variant `Code` with a number, beside variants with fields: take the number out
    #[garde(skip)]
    Other, //~ an attribute at the variant `Other`: attributes stand at types and at fields
}

/// Four.
#[derive(Validate)]
pub struct Wrapper<T: Validate> where T: Clone { //~ a `where` clause: write the bounds at the parameters
    #[garde(dive)]
    pub value: T,
    #[garde(email)] //~ the rule `email` is not ported: write `pattern("^[^@]+@[^@]+$")` with the pattern that you want, or a rule of your own, by `custom`
    pub mail: String,
}

/// Five.
#[derive(Validate)]
#[garde(transparent)]
pub struct Tags(#[garde(inner(alphanumeric), length(min = 1.5))] Vec<String>); //~ the floating-point number `1.5`

/// Six.
#[derive(Validate)]
pub struct Node {
    #[garde(dive)] //~ `dive` of `Node` into itself: such a type is walked by a function of its own
    pub left: Option<Box<Node>>,
    #[garde(range(min = 0.0, max = 1.0))] //~ `range` of the type `f64`: there are no bounds of floating-point numbers here
    pub weight: f64,
    #[garde(matches(weigth))] //~ `matches` of the field `weigth`, which is not there
    pub other: f64,
}

/// Seven.
#[derive(Validate)]
pub struct Conditional<'a> {
    #[garde(if(cond = self.kind == "x", required))]
    pub maybe: Option<u8>,
    #[garde(if(cond = self.kind.is_ascii(), ascii, url))] //~ a condition with the method `is_ascii`, which the port cannot read there
    pub kind: &'a str,
    #[garde(if(required))] //~ `if` begins with `cond = `
    pub third: Option<Arc<String>>, //~ the type `Arc`, which is not there: write `Rc`
    #[garde(length(max = 3), skip)]
    pub fourth: &'a [u8], //~ a field with rules that is skipped
    #[garde(contains('c'))] //~ an expression that the port cannot read, at `'c'`
    pub fifth: std::borrow::Cow<'a, str>,
}

/// Eight.
#[derive(Validate, sqlx::FromRow)] //~ the derive `sqlx::FromRow`, which the port does not know: take it out, or leave it out by `--leave-out FromRow`
pub struct Row {
    #[garde(credit_card, phone_number)] //~ the rule `credit_card` is not ported: give the number a type of its own that implements `CreditCard`, as docs/guide/own-rules.md#cards-and-phones has it //~ the rule `phone_number` is not ported: give the number a type of its own that implements `PhoneNumber`, as docs/guide/own-rules.md#cards-and-phones has it
    #[sqlx(rename = "nr")] //~ the attribute `sqlx`, which the port does not know: take it out, or leave it out by `--leave-out sqlx`
    pub number: String,
    #[garde(range(min = Self::LOW))] //~ a bound that the port cannot read: it reads numbers and fields of `self` and of the context
    pub low: i32,
    #[garde(adapt(ext), length(max = 3))]
    pub id: Uuid,
    #[garde(dive)] //~ `dive` of the type `HashMap<Uuid, User>`, whose items the port does not know
    pub many: HashMap<Uuid, User>,
}

/// Nine.
#[derive(Validate)]
pub(crate) struct Plain {
    #[garde(asci)] //~ the attribute `asci` is not known: did you mean `ascii`?
    pub a: String,
    #[garde(length(min = 1, characters))] //~ `length` with `characters`, which is not read there: did you mean `chars`?
    pub b: String,
    #[garde(length())] //~ `length` wants `min`, `max` or both, or `equal` alone
    pub c: String,
    #[garde(prefix(PRE))] //~ `prefix` wants a text in quotes
    pub d: String,
    #[garde(code = "x", message = "y")] //~ the attribute `code` is not known //~ the attribute `message` is not known
    pub e: String,
    #[garde(dive, range(min = 1))] //~ `dive` into the type `(u8, u8)` //~ `range` of the type `(u8, u8)`: there are no bounds here
    pub f: (u8, u8),
}

/// Ten.
#[derive(Validate)]
#[garde(allow_unvalidate)] //~ the attribute `allow_unvalidate` is not known: did you mean `allow_unvalidated`?
#[garde(context(Rules, as r))] //~ a context that the port cannot read, from `,` on: write `context(TYPE as NAME)`
pub struct Last {
    #[garde(range(max = r.most))] //~ the port cannot read `r.most`: it reads fields of `self` and of the context
    pub a: u16,
    #[garde(range(max = -5))] //~ the bound -5 of what has no sign
    pub b: u16,
    #[garde(range(min = 5, max = 9_000_000_000))] //~ the bound 9000000000, which is no `u16`
    pub c: u16,
    #[garde(rename(""), ascii)] //~ `ascii` of the type `Valid<String>`, which is no text: write a rule of your own, by `custom`
    pub d: Valid<String>,
}
