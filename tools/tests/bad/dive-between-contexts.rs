use garde::Validate;

pub struct League {
    pub least: u8,
    pub ground: Ground,
}

pub struct Ground {
    pub most: u32,
}

#[derive(Validate)]
#[garde(context(League as league))]
pub struct Team {
    #[garde(dive)]
    pub captain: Member,
    #[garde(inner(dive))] //~ `dive` into `Place`, whose context is `Ground`, with the context `League`: name a part of the context of that type, as `dive(ctx.FIELD)`
    pub places: Vec<Place>,
    #[garde(dive(league.ground))]
    pub home: Place,
    #[garde(dive(league.ground))] //~ `dive` into `Member`, whose context is `League`, with the context `Ground`: name a part of the context of that type, as `dive(ctx.FIELD)`
    pub second: Option<Member>,
    #[garde(dive(()))] //~ `dive` into `Member`, whose context is `League`, with the context `()`: name a part of the context of that type, as `dive(ctx.FIELD)`
    pub third: Member,
    #[garde(dive)] //~ `dive` into `Plain`, whose context is `()`, with the context `League`: write `dive(())`
    pub plain: Plain,
    #[garde(dive(()))]
    pub other: Plain,
}

#[derive(Validate)]
#[garde(context(League as league))]
pub struct Member {
    #[garde(range(min = league.least))]
    pub age: u8,
}

#[derive(Validate)]
#[garde(context(Ground))]
pub struct Place {
    #[garde(range(max = ctx.most))]
    pub seats: u32,
}

#[derive(Validate)]
pub struct Plain {
    #[garde(ascii)]
    pub name: String,
}
