use garde::Validate;

#[derive(Validate)]
pub struct Bad {
    #[garde(inner(ascii))] //~ `inner` of the type `BTreeMap<char, String>`, whose items the port does not know
    pub name: BTreeMap<char, String>,
}
