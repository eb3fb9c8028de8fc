//! A part under a part of the context.
//@ --spelled Whole
use crate::own::Season;
use garde::Validate;
use serde::Deserialize;

#[derive(Deserialize, Validate)]
#[garde(context(Season))]
pub struct Part {
    #[garde(skip)]
    pub name: String,
}

#[derive(Deserialize, Validate)]
#[garde(context(Season))]
pub struct Whole {
    #[garde(dive(ctx.part))] //~ `dive` with a part of the context, of which a form hands on the whole alone
    pub part: Part,
}
