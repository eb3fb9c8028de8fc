use garde::Validate;
use std::borrow::Cow;

#[derive(Validate)]
pub struct Bad<'a> {
    #[garde(ascii)] //~ `ascii` of the type `Cow<'a, [u8]>`, which is no text: write a rule of your own, by `custom`
    pub name: Cow<'a, [u8]>,
}
