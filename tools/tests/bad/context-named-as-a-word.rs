use garde::Validate;

#[derive(Validate)]
#[garde(context(Limits as items))] //~ the name `items` of the context stands for something else in the implementation
pub struct Bad {
    #[garde(length(max = items.most))]
    pub names: Vec<String>,
}
