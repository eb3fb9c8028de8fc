//! A station of a railway, some of whose parts stand under features of the crate.
//@ --spelled Station --features freight,metric
use garde::Validate;
use serde::Deserialize;

/// How a platform is reached.
#[derive(Clone, Copy, Deserialize, Validate)]
#[serde(rename_all = "lowercase")]
pub enum Access {
    Stairs,
    #[cfg(any(feature = "lifts", all(feature = "metric", not(feature = "freight"))))]
    Lift,
    #[cfg(feature = "freight")]
    Ramp,
}

/// How long a platform is where nothing says so.
#[cfg(feature = "metric")]
const LENGTH: u32 = 250;
#[cfg(not(feature = "metric"))]
const LENGTH: u32 = 820;

/// A station.
#[cfg_attr(feature = "reading", derive(Deserialize))]
#[cfg_attr(all(feature = "reading", not(feature = "loose")), serde(deny_unknown_fields))]
#[cfg_attr(docsrs, doc(cfg(feature = "reading")))]
#[derive(Validate)]
pub struct Station {
    #[garde(length(min = 1))]
    pub name: String,
    #[cfg_attr(feature = "metric", garde(range(max = 400)))]
    #[cfg_attr(not(feature = "metric"), garde(range(max = 1300)))]
    #[cfg_attr(feature = "reading", serde(default = "length"))]
    pub length: u32,
    #[cfg(feature = "freight")]
    #[garde(range(min = 1))]
    pub sidings: u8,
    #[cfg(not(feature = "freight"))]
    #[garde(ascii, length(max = 3))]
    #[serde(rename = "passengersOnly")]
    pub passengers: HashMap<String, Passenger>,
    #[garde(skip)]
    pub access: Access,
}

#[cfg(unix)]
impl Station {
    fn with(length: u32) -> u32 {
        length
    }
}

fn length() -> u32 {
    LENGTH
}
