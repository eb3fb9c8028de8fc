//! What no field of a web form writes, and contexts that no form has.
//@ --spelled Page --input web-form
use crate::own::Season;
use garde::Validate;
use serde::Deserialize;
use std::collections::BTreeMap;

#[derive(Deserialize, Validate)]
#[garde(context(Other as other))]
pub struct Part {
    #[garde(skip)]
    pub name: String,
}

#[derive(Deserialize, Validate)]
#[garde(context(Season as season))] //~ a context that is not that of another type of this file, whose form is the same: write the same one
pub struct Page {
    #[garde(dive)] //~ `dive` into `Part`, whose context is `Other`, with the context `Season`: name a part of the context of that type, as `dive(ctx.FIELD)`
    pub part: Part, //~ the type `Part`, which has fields, which no text of `--input web-form` writes
    #[garde(skip)]
    pub map: BTreeMap<String, String>, //~ the type `BTreeMap`, which no text of `--input web-form` writes
    #[garde(skip)]
    pub lists: Vec<Vec<u8>>, //~ `Vec` within `Vec`, which no text of `--input web-form` writes
    #[garde(skip)]
    pub many: u128, //~ the type `u128`, which no text of `--input web-form` writes
    #[garde(skip)]
    pub thrice: Option<Option<Option<u8>>>, //~ `Option` within `Option`, which no text of `--input web-form` writes
    #[garde(pattern("a"))] //~ a pattern in quotes under a context of one's own: add a field of type `Regex` to it, and write `pattern(ctx.FIELD)`
    pub quoted: String,
    #[garde(if(cond = self.host.parse::<u8>().is_ok(), ascii))] //~ `parse` of another type than `IpAddr`, `Ipv4Addr` or `Ipv6Addr`, or without `is_ok()` or `is_err()` behind it
    pub host: String,
    #[garde(if(cond = self.host.parse::<IpAddr>().ok(), ascii))] //~ `parse` of another type than `IpAddr`, `Ipv4Addr` or `Ipv6Addr`, or without `is_ok()` or `is_err()` behind it
    pub other: String,
}
