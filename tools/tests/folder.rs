//! A type that holds itself, as it comes in a request.
//@ --schema --no-walk
use garde::Validate;
use serde::Deserialize;

/// A folder, and the folders in it.
#[derive(Debug, Deserialize, Validate)]
#[serde(deny_unknown_fields)]
pub struct Folder {
    /// Under which it is found.
    #[garde(ascii, length(min = 1, max = 9))]
    pub name: String,
    #[garde(range(max = 1000))]
    pub size: Option<u16>,
    #[garde(dive)]
    pub folders: Vec<Folder>,
    #[garde(if(cond = self.size.is_some(), length(max = 3)))]
    pub note: String,
}

/// A disk.
#[derive(Debug, Deserialize)]
pub struct Disk {
    pub label: String,
    pub top: Vec<Folder>,
}
