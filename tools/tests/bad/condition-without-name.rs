use garde::Validate;

#[derive(Validate)]
pub struct Bad {
    #[garde(if(self.name, ascii))] //~ `if` begins with `cond = `
    pub name: String,
}
