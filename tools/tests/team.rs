//! Parts that validate themselves, under a context and parts of it.
use garde::Validate;

/// What is asked of a member.
#[derive(Clone, Copy)]
pub struct Terms {
    /// The least age in years.
    pub age: u8,
    pub title: usize,
}

/// What a league asks of its teams.
#[derive(Clone, Copy)]
pub struct League {
    pub members: Terms,
    pub most: usize,
}

/// Someone of a team.
#[derive(Validate)]
#[garde(context(Terms as terms))]
pub struct Member {
    #[garde(range(min = terms.age), rename = "years")]
    pub age: u8,
    #[garde(length(chars, min = 1, max = terms.title))]
    pub title: String,
}

/// A team.
#[derive(Validate)]
#[garde(context(League as league))]
pub struct Team {
    #[garde(length(min = 1, max = league.most), dive(league.members))]
    pub members: Vec<Member>,
    #[garde(dive(&league.members))]
    pub captain: Box<Member>,
    #[garde(dive(league.members))]
    pub coach: Option<Member>,
    #[garde(dive(()), rename("home"))]
    pub ground: Ground,
    #[garde(inner(dive(league.members)))]
    pub reserve: Option<Member>,
}

/// Where a team plays.
#[derive(Validate)]
pub struct Ground {
    #[garde(ascii)]
    pub town: String,
}

/// Teams that meet.
#[derive(Validate)]
#[garde(context(League))]
pub struct Cup {
    #[garde(dive)]
    pub teams: Vec<Team>,
    #[garde(dive)]
    pub winner: Option<Team>,
}
