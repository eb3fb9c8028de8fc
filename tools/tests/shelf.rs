//! Rules that the Rust crate does not have, and conditions on enums and texts, in a walk.
use garde::Validate;

const HIGH: i32 = 2 * 50;

/// Where it stands.
#[derive(Clone, Copy)]
pub enum Room {
    Cold { degrees: u8 },
    Dry(u8),
    Open,
}

/// A shelf.
#[derive(Validate)]
pub struct Shelf {
    #[garde(custom(unique), length(max = 3), inner(ascii))]
    pub names: Vec<String>,
    #[garde(custom(unique("comes twice")))]
    pub places: Vec<u16>,
    #[garde(custom(multiple_of(25)), range(max = u16::MAX))]
    pub height: u16,
    #[garde(custom(multiple_of(5)), range(min = -HIGH, max = HIGH))]
    pub tilt: i32,
    #[garde(custom(multiple_of(2)))]
    pub rows: Option<u8>,
}

/// A lamp and a heater for it.
#[derive(Validate)]
pub struct Power {
    #[garde(skip)]
    pub room: Room,
    #[garde(if(cond = self.room != Room::Open, required))]
    pub lamp: Option<u8>,
    #[garde(if(cond = matches!(self.room, Room::Cold { .. } | Room::Dry(..)), range(min = 5)))]
    pub heater: u16,
}

/// What stands on it, and what is said of it.
#[derive(Validate)]
pub struct Thing {
    #[garde(skip)]
    pub kind: String,
    #[garde(if(cond = self.kind == "old", ascii))]
    pub name: String,
    #[garde(skip)]
    pub places: Vec<u16>,
    #[garde(if(cond = self.places.contains(3), ascii))]
    pub note: String,
}
