//! Types of std and of other crates that a form reads as types of the file: how serde reads them, as they would be declared.
/// A `std::time::Duration`, as serde reads it.
#[derive(Clone, Copy, Debug, Default, PartialEq, Eq, Deserialize)]
#[serde(deny_unknown_fields)]
pub struct Duration { pub secs: u64, pub nanos: u32 }

/// A `std::time::SystemTime`, as serde reads it.
#[derive(Clone, Copy, Debug, PartialEq, Eq, Deserialize)]
#[serde(deny_unknown_fields)]
pub struct SystemTime { pub secs_since_epoch: u64, pub nanos_since_epoch: u32 }

/// A `std::ops::Range`.
#[derive(Clone, Debug, Default, PartialEq, Eq, Deserialize)]
#[serde(deny_unknown_fields)]
pub struct Range<T> { pub start: T, pub end: T }

/// A `std::ops::RangeInclusive`.
#[derive(Clone, Debug, PartialEq, Eq, Deserialize)]
#[serde(deny_unknown_fields)]
pub struct RangeInclusive<T> { pub start: T, pub end: T }

/// A `std::ops::Bound`.
#[derive(Clone, Copy, Debug, PartialEq, Eq, Deserialize)]
pub enum Bound<T> { Unbounded, Included(T), Excluded(T) }

/// A `std::result::Result`.
#[derive(Clone, Copy, Debug, PartialEq, Eq, Deserialize)]
pub enum Result<T, E> { Ok(T), Err(E) }

/// An `either::Either`.
#[derive(Clone, Copy, Debug, PartialEq, Eq, Deserialize)]
pub enum Either<L, R> { Left(L), Right(R) }
