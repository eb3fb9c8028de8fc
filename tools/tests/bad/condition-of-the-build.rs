use garde::Validate;

#[derive(Validate)]
pub struct Bad {
    #[cfg_attr(feature = "strict", garde(ascii))] //~ an attribute `cfg` or `cfg_attr`, which the port cannot judge: say by `--features` which are on, as `--features std,json`, or `--features=` of none
    #[garde(skip)]
    pub name: String,
}
