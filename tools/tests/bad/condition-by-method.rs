use garde::Validate;

#[derive(Validate)]
pub struct Bad {
    #[garde(if(cond = self.name.starts_with("a"), ascii))] //~ the method `starts_with` with arguments
    pub name: String,
}
