use garde::Validate;

#[derive(Validate)]
pub struct Bad {
    #[garde(skip)]
    pub r#type: u8, //~ the field `type`, whose name is a keyword: call it `type_`, and write `#[garde(rename = "type")]` beside its rules
}
