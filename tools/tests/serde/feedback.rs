//! A web form, whose fields are texts.
//@ --spelled Feedback --input web-form --own crate::own
use crate::own::Season;
use garde::Validate;
use serde::Deserialize;
use std::net::Ipv4Addr;

/// How a visitor is answered.
#[derive(Clone, Copy, Default, Deserialize)]
#[serde(rename_all = "kebab-case")]
pub enum Way {
    #[default]
    NotAtAll,
    ByMail,
}

/// What a visitor thinks.
#[derive(Deserialize, Validate)]
#[garde(context(Season as season))]
#[serde(rename_all = "camelCase")]
pub struct Feedback {
    #[garde(if(cond = self.from_host.parse::<Ipv4Addr>().is_ok(), suffix("7")), length(max = 40))]
    pub from_host: String,
    #[garde(skip)]
    pub is_member: bool,
    #[garde(range(min = -2, max = 2))]
    pub tone: i8,
    #[garde(custom(is_in_season), range(max = season.most))]
    pub stars: Option<u8>,
    #[garde(inner(range(max = 9)), length(max = 3))]
    pub pages: Vec<u16>,
    #[serde(default)]
    #[garde(skip)]
    pub answer: Way,
    #[garde(skip)]
    pub topics: Option<Vec<Way>>,
    #[garde(ascii)]
    pub note: Option<Option<String>>,
}
