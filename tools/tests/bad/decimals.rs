//@ --spelled Bad
use garde::Validate;
use serde::Deserialize;

#[derive(Deserialize, Validate)]
pub struct Bad {
    #[garde(range(min = 1.5, max = 1.25))] //~ the `min` of `range` is greater than its `max`
    pub price: f64,
    #[garde(range(max = self.price))] //~ a bound of a number with a fraction that is no number: write its digits, as `0.5`
    pub discount: f64,
    #[garde(custom(multiple_of(0.0)))] //~ `multiple_of(0.0)`: write a number above 0 whose digits fit 64 bits
    pub step: f32,
    #[garde(length(max = 3))] //~ the length of the type `Decimal<'t>`, which the port does not know: of a number write `range`, of others a rule of your own, by `custom`
    pub size: f64,
    #[garde(dive)] //~ `dive` into the type `KeptValue<'t>`
    pub seller: serde_json::Value,
    #[garde(range(min = 1))] //~ `range` of the type `KeptValue<'t>`: there are no bounds here
    pub extra: Box<serde_json::value::RawValue>,
    #[garde(skip)]
    #[serde(default)] //~ the default of the field `factor`: the default of the type `f64` is not known: write a constant, or read an `Option` and fill it in by your code
    pub factor: f64,
}
