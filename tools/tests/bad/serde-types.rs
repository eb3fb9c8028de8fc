use garde::Validate;
use serde::Deserialize;

#[derive(Deserialize, Validate)]
pub struct Bad<'a> {
    #[garde(skip)]
    pub shared: Vec<Rc<String>>, //~ serde of the type `Rc`, which it does not know here
    #[garde(skip)]
    pub five: (u8, u8, u8, u8, u8), //~ serde of a tuple of more than 4 parts, which it does not know here
    #[garde(inner(ascii))]
    pub names: &'a [String], //~ serde of a reference that is no `&str`, which it does not know here
    #[garde(skip)]
    #[serde(skip)]
    pub hidden: Option<Rc<String>>,
}

#[derive(Deserialize)]
pub struct Folder {
    pub folders: Vec<File>, //~ `Deserialize` of `Folder`, whose values hold values of its own type: it wants `#[serde(recursive)]` here, at the type and at the field
}

#[derive(Deserialize)]
pub struct File {
    pub folder: Option<Box<Folder>>, //~ `Deserialize` of `File`, whose values hold values of its own type: it wants `#[serde(recursive)]` here, at the type and at the field
}

#[derive(Validate)]
#[serde(rename_all = "camelCase")] //~ an attribute of serde at `Read`, which has neither `Serialize` nor `Deserialize` among its derives
pub struct Read {
    #[garde(skip)]
    #[serde(default)] //~ an attribute of serde at `Read`, which has neither `Serialize` nor `Deserialize` among its derives
    pub name: String,
}
