use garde::Validate;

#[derive(Validate)]
pub struct Bad {
    #[garde(skip, ascii)]
    pub name: String, //~ a field with rules that is skipped
}
