//! What no cell of a table writes.
//@ --spelled Row --input rows
use garde::Validate;
use serde::Deserialize;

#[derive(Deserialize, Validate)]
pub struct Row {
    #[garde(skip)]
    pub tags: Vec<String>, //~ the type `Vec`, which no text of `--input rows` writes
    #[garde(skip)]
    pub more: Option<Vec<u8>>, //~ `Vec` within `Option`, which no text of `--input rows` writes
    #[garde(skip)]
    pub twice: Option<Option<u8>>, //~ `Option` within `Option`, which no text of `--input rows` writes
    #[garde(if(cond = self.count.parse::<IpAddr>().is_ok(), range(min = 1)))] //~ `parse` of `self.count`, which is neither a `String` nor a `&str` nor read by a form
    pub count: u8,
}
