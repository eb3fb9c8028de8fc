//! A list whose items differ, where what JSON spells is stated.
//@ --spelled Basket --own crate::own
use garde::Validate;
use serde::Deserialize;
use std::collections::BTreeMap;

/// What is bought.
#[derive(Deserialize, Validate)]
pub struct Basket {
    #[garde(length(max = 3), custom(unique("twice")), inner(ascii))]
    pub things: Vec<String>,
    #[garde(inner(range(max = 9)))]
    pub prices: BTreeMap<String, u16>,
    #[garde(custom(is_even))]
    pub pieces: Option<u32>,
}
