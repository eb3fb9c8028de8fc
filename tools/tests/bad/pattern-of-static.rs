use garde::Validate;

#[derive(Validate)]
pub struct Bad {
    #[garde(pattern(MAIL))] //~ the pattern `MAIL` is no part of the context: write its text in quotes, as `pattern("..")`
    pub name: String,
}
