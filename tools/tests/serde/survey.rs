//! A survey with more members than two tuples hold.
//@ --spelled Survey
use garde::Validate;
use serde::Deserialize;

/// Marks of thirteen things, and a word on them.
#[derive(Deserialize, Validate)]
pub struct Survey {
    #[garde(range(max = 9))]
    pub waiting: u8,
    #[garde(range(max = 8))]
    pub staff: u8,
    #[garde(range(max = 7))]
    pub rooms: u8,
    #[garde(range(max = 9))]
    pub food: u8,
    #[garde(range(max = 8))]
    pub price: u8,
    #[garde(range(max = 7))]
    pub location: u8,
    #[garde(range(max = 9))]
    pub quiet: u8,
    #[garde(range(max = 8))]
    pub beds: u8,
    #[garde(range(max = 7))]
    pub light: u8,
    #[garde(range(max = 9))]
    pub garden: u8,
    #[garde(range(max = 8))]
    pub pool: u8,
    #[garde(range(max = 7))]
    pub bath: u8,
    #[garde(range(max = 9))]
    pub overall: u8,
    #[garde(length(chars, max = 80))]
    pub note: String,
}
