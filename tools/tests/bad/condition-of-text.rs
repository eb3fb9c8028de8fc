use garde::Validate;

#[derive(Validate)]
pub struct Bad {
    #[garde(if(cond = self.name, ascii))] //~ the condition `self.name` is no `bool`
    pub name: String,
}
