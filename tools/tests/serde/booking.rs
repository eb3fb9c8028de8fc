//! A booking: dates, times and moments that are compared.
//@ --spelled Booking
use chrono::{DateTime, NaiveDate, NaiveDateTime, NaiveTime, Utc};
use garde::Validate;
use serde::Deserialize;

/// Who sleeps there.
#[derive(Debug, Deserialize, Validate)]
pub struct Guest {
    #[garde(length(chars, min = 1, max = 60))]
    pub name: String,
    #[garde(skip)]
    pub born: Option<NaiveDate>,
}

/// A booking of a room.
#[derive(Debug, Deserialize, Validate)]
#[serde(rename_all = "camelCase", deny_unknown_fields)]
pub struct Booking {
    #[garde(skip)]
    pub made_at: DateTime<Utc>,
    #[garde(custom(asks("changed before it was made", value >= self.made_at)))]
    pub changed_at: DateTime<Utc>,
    #[garde(skip)]
    pub check_in: NaiveDate,
    #[garde(custom(asks("check-out is not after check-in", value > self.check_in)))]
    pub check_out: NaiveDate,
    #[garde(inner(custom(asks("no night of the stay", value >= self.check_in && value < self.check_out))))]
    pub breakfasts: Vec<NaiveDate>,
    #[garde(skip)]
    pub from: NaiveTime,
    #[garde(custom(asks("no hour is left", self.from <= value && value != self.from)))]
    pub until: NaiveTime,
    #[garde(skip)]
    pub cleaned: NaiveDateTime,
    #[garde(custom(asks("cleaned at another time", value == self.cleaned)))]
    pub again: NaiveDateTime,
    #[garde(length(min = 1, max = 6), dive)]
    pub guests: Vec<Guest>,
}
