//! A shipment, whose parts are of types of std and of other crates that serde reads as it reads types of their shape.
//@ --spelled Shipment
use arrayvec::{ArrayString, ArrayVec};
use either::Either;
use garde::Validate;
use js_int::{Int, UInt};
use ordered_float::OrderedFloat;
use serde::de::IgnoredAny;
use serde::Deserialize;
use std::collections::{BTreeMap, BinaryHeap, Bound, HashSet};
use std::marker::PhantomData;
use std::num::{NonZeroI16, NonZeroU32};
use std::ops::{Range, RangeInclusive};
use std::time::{Duration, SystemTime};

const ROWS: usize = 1 << 1;

/// A service, of which one further is named by a number.
#[derive(Clone, Debug, Deserialize)]
#[serde(rename_all = "lowercase")]
pub enum Service {
    Express,
    #[serde(alias = "slow")]
    Standard,
    Other(u8),
}

/// A mark on the box, which is compared by hand.
#[derive(Clone, Copy, Debug, Deserialize)]
pub enum Mark {
    Fragile,
    Upright,
}

/// How the box is measured.
#[derive(Debug, Deserialize, Validate)]
#[serde(default)]
pub struct Measures {
    #[garde(range(max = 200))]
    pub width: Option<u32>,
    #[garde(skip)]
    pub tags: HashSet<u16>,
}

impl Default for Measures {
    fn default() -> Self {
        Measures { width: Some(10), tags: HashSet::new() }
    }
}

/// What is known of the box, of which each part may be missing.
#[derive(Default, Deserialize)]
pub struct Known {
    #[serde(flatten)]
    about: Option<About>,
}

/// The parts.
#[derive(Default, Deserialize)]
pub struct About {
    color: Option<String>,
    age: Option<u8>,
}

/// A depot, whose gates are a set.
#[derive(Deserialize, Validate)]
struct Depot {
    #[garde(skip)]
    pub gates: HashSet<u8>,
    #[garde(skip)]
    hours: OnlyHours,
}

/// When it is open, which is the one thing that is said of it.
#[derive(Deserialize)]
enum OnlyHours {
    Open(u8, u8),
}

/// A box of another list.
#[derive(Deserialize, Validate)]
pub struct Unread {
    #[garde(skip)]
    pub sides: BTreeMap<bool, u8>,
}

/// How long it waits.
#[derive(Deserialize, Validate)]
#[serde(default)]
pub struct Waits {
    #[garde(skip)]
    pub most: Duration,
    #[garde(skip)]
    pub each: Option<Duration>,
}

impl Default for Waits {
    fn default() -> Self {
        Self { most: Duration::from_millis(2500), each: None }
    }
}

/// A shipment.
#[derive(Deserialize, Validate)]
pub struct Shipment {
    #[garde(skip)]
    pub number: NonZeroU32,
    #[garde(skip)]
    pub shift: Option<NonZeroI16>,
    #[garde(skip)]
    pub customer: UInt,
    #[garde(range(min = 0))]
    pub balance: Int,
    #[garde(skip)]
    pub waits: Waits,
    #[garde(skip)]
    pub made: SystemTime,
    #[garde(skip)]
    pub hours: Range<u8>,
    #[garde(skip)]
    pub days: Vec<RangeInclusive<u16>>,
    #[garde(skip)]
    pub upto: Bound<u32>,
    #[garde(skip)]
    pub paid: Result<u32, String>,
    #[garde(skip)]
    pub to: Either<u32, String>,
    #[garde(skip)]
    pub unit: PhantomData<Mark>,
    #[garde(skip)]
    pub notes: IgnoredAny,
    #[garde(skip)]
    pub code: ArrayString<8>,
    #[garde(inner(range(max = 9)))]
    pub levels: ArrayVec<u8, 4>,
    #[garde(skip)]
    pub grid: [u8; ROWS * 3],
    #[garde(skip)]
    pub weight: OrderedFloat<f64>,
    #[garde(skip)]
    pub order: BinaryHeap<u32>,
    #[garde(skip)]
    pub marks: HashSet<Mark>,
    #[garde(skip)]
    pub prices: BTreeMap<Service, u32>,
    #[garde(skip)]
    pub answers: BTreeMap<bool, u8>,
    #[garde(skip)]
    from: Depot,
    #[garde(skip)]
    #[serde(default)]
    pub known: Known,
    #[garde(dive)]
    #[serde(flatten)]
    pub measures: Option<Measures>,
}
