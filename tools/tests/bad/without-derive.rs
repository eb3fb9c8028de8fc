pub struct Bad { //~ `garde` attributes at `Bad`, which has no `Validate` among its derives
    #[garde(ascii)]
    pub name: String,
}
