#[derive(Deserialize, Validate)]
#[serde(deny_unknown_fields)]
struct Trip {
    #[garde(length(chars, min = 1, max = 5))]
    name: String,
    #[garde(skip)]
    kind: Kind,
    #[garde(custom(multiple_of(3)), range(min = 3, max = 30))]
    days: u8,
    #[garde(length(max = 3), custom(unique), inner(length(chars, max = 3)))]
    tags: Vec<String>,
    #[garde(length(max = 3), custom(keys(prefix("c"))), inner(range(max = 9)))]
    seats: BTreeMap<String, u16>,
    #[garde(if(cond = matches!(self.kind, Kind::Two | Kind::Three) && !self.tags.contains("ab"), required), ascii)]
    note: Option<String>,
    #[garde(if(cond = self.note.is_some() || self.days > 9, range(min = 2)))]
    #[serde(default = "one")]
    cars: u8,
    #[garde(if(cond = self.cars == 1, length(max = 1)), inner(range(max = 99)))]
    ages: Vec<Option<u8>>,
    #[garde(skip)]
    #[serde(default)]
    back: bool,
    #[garde(if(cond = !self.back, length(chars, max = 2)))]
    home: String,
    #[garde(dive)]
    paid: Paid,
}

#[derive(Deserialize, Validate)]
#[serde(tag = "by", rename_all = "lowercase", deny_unknown_fields)]
enum Paid {
    Card {
        #[garde(length(chars, equal = 4), suffix("7"))]
        number: String,
    },
    Cash,
}

fn one() -> u8 {
    1
}
#[derive(Clone, Copy, Deserialize)]
#[serde(rename_all = "lowercase")]
pub enum Kind {
    One,
    #[serde(alias = "second")]
    Two,
    Three,
}
