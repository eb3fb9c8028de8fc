//! A product in a catalogue: prices to the cent, and what the seller adds.
//@ --spelled Product
use garde::Validate;
use serde::Deserialize;
use serde_json::Value;
use std::collections::BTreeMap;

/// A product.
#[derive(Debug, Deserialize, Validate)]
pub struct Product {
    #[garde(length(chars, min = 1, max = 80))]
    pub name: String,
    #[garde(range(min = 0.01, max = 99999.99), custom(multiple_of(0.01)))]
    pub price: f64,
    #[garde(range(max = 30))]
    pub weight: Option<f32>,
    #[garde(length(max = 4), inner(range(min = -0.5, max = 1e3)))]
    pub sizes: Vec<f64>,
    #[garde(skip)]
    pub factor: f64,
    #[garde(skip)]
    pub seller: Value,
    #[garde(skip)]
    pub note: Option<Box<serde_json::value::RawValue>>,
    #[garde(length(max = 9))]
    pub more: BTreeMap<String, serde_json::Value>,
    #[garde(skip)]
    pub rest: serde_json::Map<String, Value>,
}
