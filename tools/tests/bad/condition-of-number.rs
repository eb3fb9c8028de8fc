use garde::Validate;

#[derive(Validate)]
pub struct Bad {
    #[garde(if(cond = 3, ascii))] //~ a condition that is a number
    pub name: String,
}
