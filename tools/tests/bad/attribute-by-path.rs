use garde::Validate;

#[derive(Validate)]
pub struct Bad {
    #[garde::garde(ascii)] //~ the attribute `garde::garde`: at a type or a field write `#[garde(..)]`
    pub name: String,
}
