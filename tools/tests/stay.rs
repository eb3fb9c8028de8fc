//! A stay in a hotel: rules of its own, each with a message.
//@ --spelled Stay
use garde::Validate;
use serde::Deserialize;

/// The last room with beds.
const BEDS: u8 = 4;

/// What is asked of stays.
#[derive(Clone, Copy)]
pub struct Season {
    /// The greatest discount.
    pub most: u8,
}

/// An offer, which no form reads.
#[derive(Validate)]
pub struct Offer {
    #[garde(custom(asks("a name of its own", value != self.town && !self.town.is_empty())))]
    pub name: String,
    #[garde(inner(custom(asks("an odd room", value % 2 == 0))))]
    pub rooms: Vec<u32>,
    #[garde(skip)]
    pub town: String,
}

/// A stay.
#[derive(Debug, Deserialize, Validate)]
#[garde(context(Season as season))]
pub struct Stay {
    #[garde(custom(is_no_monday))]
    pub from: u16,
    #[garde(custom(asks("leave after you arrive", value > self.from)))]
    pub until: u16,
    #[garde(custom(asks("no room", self.guests.len() <= 4)))]
    #[garde(custom(asks("more beds than guests", self.beds.len() <= value.len())))]
    pub guests: Vec<String>,
    #[garde(inner(custom(asks("no such room", value >= 1 && value <= BEDS))))]
    pub beds: Vec<u8>,
    #[garde(custom(|note, _| if note.is_empty() && self.beds.len() < self.guests.len() / 2 { Err(garde::Error::new("say who shares")) } else { Ok(()) }))]
    pub note: String,
    #[garde(custom(|percent: &u8, of: &Season| if *percent > of.most { Err(garde::Error::new("not in season")) } else { Ok(()) }))]
    pub percent: u8,
}

fn is_no_monday(day: &u16, _: &Season) -> garde::Result {
    if day % 7 == 0 {
        return Err(garde::Error::new("closed on Mondays"));
    }
    Ok(())
}
