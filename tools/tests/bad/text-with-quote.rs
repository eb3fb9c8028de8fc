use garde::Validate;

#[derive(Validate)]
pub struct Bad {
    #[garde(contains("\""))] //~ a text with a quote or a backslash in it
    pub name: String,
}
