//! What no text of a path or of a query writes.
//@ --spelled Asked --input request
use garde::Validate;
use serde::Deserialize;

#[derive(Deserialize, Validate)]
pub struct Part {
    #[garde(length(min = 1))]
    pub name: String,
}

#[derive(Deserialize, Validate)]
pub struct Query {
    #[garde(dive)]
    pub part: Part, //~ the type `Part`, which has fields, which no text of `--input request` writes
    #[garde(length(max = 3))]
    pub tags: Vec<String>, //~ the type `Vec`, which no text of `--input request` writes
    #[garde(range(min = 0.5))]
    pub price: f64, //~ the type `f64`, which no text of `--input request` writes
}

#[derive(Deserialize, Validate)]
pub struct Asked {
    #[garde(dive)]
    pub path: Part,
    #[garde(dive)]
    pub query: Query,
}
