//! The marks of a recording of a whole driver. "All numbers big-endian".

use rules::bytes::half;
use rules::recording::{self, First};

/// "A length above 1,025 (0x4C) or 513 (0x51) makes the mark an unknown one"
pub const MOST_LENT: usize = 1_025;
pub const MOST_CUE: usize = 513;

/// Which marks are known.
#[derive(Clone, Copy, Debug, PartialEq, Eq)]
pub enum Marks {
    /// CR 14's alone: the further ones are unknown marks.
    Plain,
    Further,
}

/// "The first of 0x54, 0x49, 0x57 decides the card".
#[derive(Clone, Copy, Debug, PartialEq, Eq)]
pub enum Card {
    Utc,
    Rolling,
}

impl Card {
    /// The card that this mark is of, if it is of one alone.
    pub fn of(mark: u8) -> Option<Card> {
        match mark {
            0x54 => Some(Card::Utc),
            0x49 | 0x57 => Some(Card::Rolling),
            _ => None,
        }
    }
}

/// What the marks of an entry hang on: whether it is the first one, and the card.
#[derive(Clone, Copy, Debug, PartialEq, Eq)]
pub struct Before {
    pub marks: Marks,
    pub entries: bool,
    pub card: Option<Card>,
}

/// "0x4C and 0x4E are no calls".
pub fn is_call(mark: u8) -> bool {
    recording::is_call(mark) || matches!(mark, 0x51 | 0x49 | 0x57)
}

/// The entry at the front of bytes that are not empty.
pub fn first(rest: &[u8], before: &Before) -> First {
    let other = before.card.is_some_and(|card| Card::of(rest[0]).is_some_and(|own| own != card));
    match (before.marks, rest[0]) {
        (Marks::Plain, _) => recording::first(rest),
        // "from then on the other card's marks are unknown marks"
        (_, 0x54 | 0x49 | 0x57) if other => First::Unknown,
        // "only as the first entry [..]; elsewhere an unknown mark"
        (_, 0x4E) if before.entries => First::Unknown,
        (_, 0x4E) => of_length(rest, 34),
        // "0 or 1 [..]; another second byte is an unknown mark"
        (_, 0x4C) if rest.get(1).is_some_and(|which| *which > 1) => First::Unknown,
        (_, 0x4C) => with_length(rest, MOST_LENT, 0),
        // "section, PTS 8, Seconds 4, MicroSeconds 4"
        (_, 0x51) => with_length(rest, MOST_CUE, 16),
        // "Seconds 4, MicroSeconds 4, reading 4"; "reading 4"
        (_, 0x49) => of_length(rest, 14),
        (_, 0x57) => of_length(rest, 6),
        _ => recording::first(rest),
    }
}

fn of_length(rest: &[u8], needs: usize) -> First {
    match rest.len() < needs {
        true => First::Cut { needs },
        false => First::Whole(needs),
    }
}

/// "length 2, bytes": an unknown mark is "told at its fourth byte".
fn with_length(rest: &[u8], most: usize, behind: usize) -> First {
    if rest.len() < 4 {
        return First::Cut { needs: 4 };
    }
    match usize::from(half(rest, 2)) {
        length if length > most => First::Unknown,
        length => of_length(rest, 4 + length + behind),
    }
}
