//! A game on a board: tuples, structs and variants of several values without names, and such without any.
//@ --spelled Board
use garde::Validate;
use serde::Deserialize;

/// That a game is over.
#[derive(Clone, Copy, Debug, Deserialize, Validate)]
pub struct Over;

/// What a game has none of yet.
#[derive(Clone, Copy, Debug, Deserialize, Validate)]
#[serde(deny_unknown_fields)]
pub struct Plans {}

/// A player: a number, a name, and whether it plays white.
#[derive(Debug, Deserialize, Validate)]
pub struct Player(#[garde(range(min = 1))] pub u8, #[garde(skip)] pub Option<String>, #[garde(skip)] pub bool);

/// A move.
#[derive(Debug, Deserialize, Validate)]
pub enum Move {
    To(#[garde(range(max = 7))] u8, #[garde(range(max = 7))] u8),
    Say(#[garde(ascii)] String),
}

/// A game.
#[derive(Debug, Deserialize, Validate)]
pub struct Board {
    #[garde(skip)]
    pub place: (u8, String),
    #[garde(length(max = 9))]
    pub path: Vec<(i32, i32)>,
    #[garde(skip)]
    pub nothing: (),
    #[garde(skip)]
    pub over: Option<Over>,
    #[garde(skip)]
    pub plans: Plans,
    #[garde(dive)]
    pub players: Vec<Player>,
    #[garde(dive)]
    pub last: Move,
}
