use garde::Validate;

#[derive(Validate)]
pub struct Bad {
    #[garde(matches(other))] //~ `matches` of `i8`: it is written of two texts, options of texts or numbers without a sign, each of one type, so compare others by a rule of your own, by `custom`
    pub name: i8,
    #[garde(skip)]
    pub other: i8,
    #[garde(matches(other))] //~ `matches` of `u8` and `i8`: it is written of two texts, options of texts or numbers without a sign, each of one type, so compare others by a rule of your own, by `custom`
    pub third: u8,
}
