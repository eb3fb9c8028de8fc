use garde::Validate;

#[derive(Validate)] //~ `Validate` at what the port does not read: the port reads structs and enums at the top of a file, and not in `mod`, functions or macros
pub union Bad {
    #[garde(ascii)]
    pub name: String,
}
