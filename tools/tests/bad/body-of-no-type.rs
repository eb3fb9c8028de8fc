//~ the body `Trip`: there is no type of that name which derives `Deserialize` and `Validate`
//@ --body Trip --module made::body
use serde::Deserialize;

/// A trip.
#[derive(Deserialize)]
pub struct Journey {
    pub name: String,
}
