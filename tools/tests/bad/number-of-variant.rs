use garde::Validate;

#[derive(Validate)]
pub enum Bad {
    One = 1,
    Two = 1 + 1, //~ the variant `Two` whose number is computed: write the number itself
    Most = MOST, //~ the variant `Most` whose number is computed: write the number itself
}

#[derive(Validate)]
pub enum Mixed {
    Three(#[garde(skip)] u8),
    Four = 4, //~ the variant `Four` with a number, beside variants with fields: take the number out
}
