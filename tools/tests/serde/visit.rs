//! A call: texts that are parsed.
//@ --spelled Call
use chrono::{DateTime, NaiveDate, NaiveDateTime, NaiveTime, Utc};
use garde::Validate;
use serde::Deserialize;
use std::net::{IpAddr, Ipv4Addr, Ipv6Addr};
use time::OffsetDateTime;
use url::Url;
use uuid::Uuid;

/// Who visits.
#[derive(Debug, Deserialize, Validate)]
pub struct Caller {
    #[garde(skip)]
    pub page: Url,
    #[garde(skip)]
    pub client: IpAddr,
    #[garde(skip)]
    pub server: Option<Ipv4Addr>,
    #[garde(skip)]
    pub next: Option<Ipv6Addr>,
    #[garde(skip)]
    pub mark: char,
}

/// A call.
#[derive(Debug, Deserialize, Validate)]
pub struct Call {
    #[garde(ascii)]
    pub note: String,
    #[garde(skip)]
    pub id: Uuid,
    #[garde(skip)]
    pub day: NaiveDate,
    #[garde(skip)]
    pub until: Option<NaiveDate>,
    #[garde(skip)]
    pub at: NaiveTime,
    #[garde(skip)]
    pub local: NaiveDateTime,
    #[garde(skip)]
    pub made: DateTime<Utc>,
    #[garde(skip)]
    pub read: jiff::Timestamp,
    #[garde(skip)]
    #[serde(with = "time::serde::rfc3339")]
    pub sent: OffsetDateTime,
    #[garde(length(max = 4))]
    pub others: Vec<NaiveDate>,
    #[garde(dive)]
    pub caller: Caller,
}
