//! A body that borrows nothing.
//@ --body Size --module made::size
use garde::Validate;
use serde::Deserialize;

#[derive(Deserialize, Validate)]
pub struct Size { //~ the body `Size`, which holds no text and no map: a body borrows from its bytes, so give it a field of type `String`
    #[garde(range(max = 9))]
    pub high: u8,
}
