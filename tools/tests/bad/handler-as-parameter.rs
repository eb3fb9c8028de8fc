use garde::Validate;

#[derive(Validate)]
pub struct Bad<H: Validate> { //~ a parameter of the name `H`, which the method has for the handler
    #[garde(dive)]
    pub value: H,
}
