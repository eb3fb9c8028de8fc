#![cfg(unix)] //~ an attribute `cfg` or `cfg_attr`, which the port cannot judge
#![cfg_attr(docs, feature(doc_cfg))] //~ an attribute `cfg` or `cfg_attr`, which the port cannot judge
use garde::Validate;

#[derive(Validate)]
pub struct Bad {
    #[garde(ascii)]
    pub name: String,
}
