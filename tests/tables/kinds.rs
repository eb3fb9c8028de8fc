#[derive(Clone, Copy, Deserialize)]
#[serde(rename_all = "lowercase")]
pub enum Kind {
    One,
    #[serde(alias = "second")]
    Two,
    Three,
}
fn some() -> Option<u8> { Some(7) }
fn kind() -> Kind { Kind::Two }
fn three() -> u8 { 3 }
fn long() -> String { "xyz".into() }
fn yes() -> bool { true }
