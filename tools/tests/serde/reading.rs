//! A row of a table.
//@ --spelled Reading --input rows
use garde::Validate;
use serde::Deserialize;

/// Who reads a meter.
#[derive(Clone, Copy, Deserialize)]
#[serde(rename_all = "lowercase")]
pub enum Reader {
    Owner,
    Works,
}

/// What a meter shows.
#[derive(Deserialize, Validate)]
pub struct Reading {
    #[garde(length(min = 1))]
    pub meter: String,
    #[garde(range(min = 1))]
    pub pulses: u64,
    #[garde(range(min = self.pulses))]
    pub most: Option<u32>,
    #[garde(skip)]
    pub is_read: Option<bool>,
    #[garde(skip)]
    pub reader: Option<Reader>,
}
