use garde::Validate;

#[derive(Validate)]
pub struct Bad {
    #[garde(ascii)] //~ `ascii` of the type `u8`, which is no text: write a rule of your own, by `custom`
    pub name: u8,
}
