//! A voucher, of which your own forms read three parts.
//@ --spelled Voucher --own crate::own
use garde::Validate;
use money::Money;
use money::Text;
use serde::{Deserialize, Deserializer};
use std::time::Duration;

/// Who may use it: everybody, or one person.
pub enum Holder {
    Everybody,
    Person(String),
}

impl<'de> Deserialize<'de> for Holder {
    fn deserialize<D: Deserializer<'de>>(deserializer: D) -> Result<Self, D::Error> {
        let name = String::deserialize(deserializer)?;
        Ok(if name == "*" { Holder::Everybody } else { Holder::Person(name) })
    }
}

/// A voucher.
#[derive(Deserialize, Validate)]
struct Voucher {
    #[garde(length(min = 1))]
    pub number: String,
    #[garde(skip)]
    pub worth: Money, //~ worth: the type `money::Money`, which is read elsewhere: any value passes and is kept as it was; narrow `Money` in crate::own
    #[garde(length(max = 9))]
    pub steps: Vec<Option<Money>>, //~ steps: the type `money::Money`, which is read elsewhere: any value passes and is kept as it was; narrow `Money` in crate::own
    #[garde(skip)]
    pub words: Option<Text>, //~ words: the type `money::Text`, which is read elsewhere: any value passes and is kept as it was; narrow `MoneyText` in crate::own
    #[garde(skip)]
    pub holder: Holder, //~ holder: the type `Holder`, which is read elsewhere: any value passes and is kept as it was; narrow `Holder` in crate::own
    #[garde(skip)]
    #[serde(rename = "validFor", with = "humantime_serde")]
    pub valid_for: Duration, //~ valid_for: a field that `humantime_serde` reads: any value passes and is kept as it was; narrow `VoucherValidFor` in crate::own
}
