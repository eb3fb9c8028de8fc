//! Where something is: texts with parts, addresses, and each unit in which a text is counted.
use garde::Validate;

/// A place on the network.
#[derive(Validate)]
pub struct Place {
    #[garde(contains("@"), suffix(".org"))]
    pub mail: String,
    #[garde(prefix("t-"), length(bytes, equal = 5))]
    pub tag: String,
    #[garde(ip)]
    pub host: String,
    #[garde(ipv4)]
    pub old: String,
    #[garde(ipv6)]
    pub new: String,
    #[garde(url)]
    pub site: String,
    #[garde(length(graphemes, min = 1, max = 3))]
    pub sign: String,
    #[garde(length(utf16, max = 2))]
    pub short: String,
    #[garde(length(simple, min = 2), length(chars, max = 4))]
    pub title: String,
}
