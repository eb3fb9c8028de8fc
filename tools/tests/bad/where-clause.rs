use garde::Validate;

#[derive(Validate)]
pub struct Bad<T>
where //~ a `where` clause: write the bounds at the parameters
    T: Validate,
{
    #[garde(dive)]
    pub value: T,
}
