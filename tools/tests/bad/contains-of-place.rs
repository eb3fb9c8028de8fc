use garde::Validate;

#[derive(Validate)]
pub struct Bad {
    #[garde(contains(self.other))] //~ `contains` wants a text in quotes
    pub name: String,
}
