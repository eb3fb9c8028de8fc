//! Numbers, with a sign and without, under each kind of bounds.
use garde::Validate;

/// What an instrument shows.
#[derive(Clone, Copy, Validate)]
pub struct Reading {
    #[garde(range(min = 18))]
    pub age: u8,
    #[garde(range(max = 5_000))]
    pub height: u32,
    #[garde(range(equal = 7))]
    pub kind: u64,
    #[garde(range(min = 1, max = 0xff))]
    pub channel: usize,
    #[garde(range(min = -40))]
    pub coldest: i16,
    #[garde(range(max = -1))]
    pub depth: i64,
    #[garde(range(min = -10, max = 10))]
    pub tilt: i32,
    #[garde(range(equal = 0))]
    pub drift: i8,
}
