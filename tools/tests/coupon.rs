//! User-defined rules, and rules of a view.
use garde::Validate;

/// What is asked of coupons.
#[derive(Clone, Copy)]
pub struct Season {
    /// The greatest discount.
    pub most: u8,
}

/// A text of its own type.
pub struct Tag(pub String);

/// A part of the price.
#[derive(Validate)]
#[garde(context(Season as season))]
pub struct Discount {
    #[garde(custom(is_in_season))]
    pub percent: u8,
    #[garde(inner(custom(is_in_season)))]
    pub further: Vec<u8>,
}

/// A coupon.
#[derive(Validate)]
pub struct Coupon {
    #[garde(custom(is_even))]
    pub number: u32,
    #[garde(adapt(tag_text), prefix("t-"), length(max = 6))]
    pub tag: Tag,
    #[garde(custom(|value: &bool, _ctx: &()| {
        value.then_some(()).ok_or(garde::Error::new("accept the terms"))
    }))]
    pub terms: bool,
}

fn is_in_season(value: &u8, season: &Season) -> garde::Result {
    match season.most.checked_sub(*value) {
        Some(_) => Ok(()),
        None => Err(garde::Error::new("not in season")),
    }
}

fn is_even(value: &u32, _ctx: &()) -> garde::Result {
    match *value % 2 {
        0 => Ok(()),
        _ => Err(garde::Error::new("not even")),
    }
}

mod tag_text {
    pub use garde::rules::*;
}
