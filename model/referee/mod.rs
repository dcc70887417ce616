//! Recordings of a whole driver, of any length, judged: the referee. It stands beside the rules, which it takes as they are; CR 14's
//! checker stays theirs. A recording's words are those of 02, CR 14; what the further marks are stands above each.

pub mod judge;
pub mod marks;
pub mod player;

pub use judge::{Judging, Kind, Referee, Verdict, JUDGING};
pub use marks::{is_call, Card, Marks};
pub use player::Player;
