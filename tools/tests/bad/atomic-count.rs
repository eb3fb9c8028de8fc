use garde::Validate;

#[derive(Validate)]
pub struct Bad {
    #[garde(skip)]
    pub name: Arc<String>, //~ the type `Arc`, which is not there: write `Rc`
}
