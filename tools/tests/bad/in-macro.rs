use garde::Validate;

made! {
    #[derive(Validate)] //~ `Validate` at what the port does not read: the port reads structs and enums at the top of a file, and not in `mod`, functions or macros
    pub struct Bad(#[garde(skip)] u8);
}
