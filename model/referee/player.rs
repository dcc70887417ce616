//! The splicer that a recording's calls are made on: a card of either kind, and the sections lent to it.

use super::marks::{Card, MOST_CUE, MOST_LENT};
use rules::bytes::{self, half, word};
use rules::card;
use rules::rolling::{self, Rolling};
use rules::sections::Given;
use rules::state::{Maps, Said, ROOM};

#[derive(Clone)]
pub struct Player {
    /// A splicer; its counter is that of a rolling card only.
    pub driven: Rolling,
    /// "The first of 0x54, 0x49, 0x57 decides the card".
    pub card: Option<Card>,
    /// "the primary's (0) or insertion's (1) section that message calls lend from here on, empty before any"
    pub lent: [Vec<u8>; 2],
}

impl Player {
    /// "one without a zero byte counts as the empty name"
    pub fn fresh(name: &[u8; 32]) -> Player {
        Player { driven: Rolling::fresh(name).0, card: None, lent: Default::default() }
    }

    /// A whole entry 0x4E, 0x4C or of a call: what is due behind it.
    pub fn make(&mut self, entry: &[u8]) -> Vec<u8> {
        self.card = self.card.or(Card::of(entry[0]));
        match entry[0] {
            0x4E => *self = Player::fresh(&std::array::from_fn(|at| entry[2 + at])),
            0x4C => self.lent[usize::from(entry[1])] = entry[4..].to_vec(),
            _ => return card::shown(self.made(entry)),
        }
        Vec::new()
    }

    fn made(&mut self, entry: &[u8]) -> Result<Said, u8> {
        match entry[0] {
            0x51 => self.driven.splicer.cue(&cue_of(entry), ROOM).map(|out| (out, 0)),
            0x49 => {
                let (seconds, micros, reading) = (word(entry, 2), word(entry, 6), word(entry, 10));
                self.driven.make(&rolling::Call::Instant { seconds, micros, reading }, ROOM)
            }
            0x57 => self.driven.make(&rolling::Call::Reading(word(entry, 2)), ROOM),
            _ => match card::next_call(entry) {
                Ok((card::Call::Message(conn, bytes), _)) => {
                    let maps = Maps { primary: &self.lent[0], insertion: &self.lent[1] };
                    self.driven.splicer.message_with(conn, &bytes, &maps, ROOM)
                }
                Ok((call, _)) => card::made(&mut self.driven.splicer, &call, ROOM),
                Err(_) => Ok(Said::default()),
            },
        }
    }
}

/// "length 2, section, PTS 8, Seconds 4, MicroSeconds 4"
fn cue_of(entry: &[u8]) -> Given {
    let end = 4 + usize::from(half(entry, 2));
    let pts = u64::from(word(entry, end)) << 32 | u64::from(word(entry, end + 4));
    Given { section: entry[4..end].to_vec(), pts, seconds: word(entry, end + 8), micros: word(entry, end + 12) }
}

/// A section behind its length: "the recorder writes of a longer section the first 1,025 (513) bytes: the answer is the same".
fn behind_length(section: &[u8], most: usize) -> Vec<u8> {
    let taken = &section[..section.len().min(most)];
    [&(taken.len() as u16).to_be_bytes()[..], taken].concat()
}

/// The entry of a cue call.
pub fn cue_bytes(given: &Given) -> Vec<u8> {
    let behind = bytes::words(&[(given.pts >> 32) as u32, given.pts as u32, given.seconds, given.micros]);
    [&[0x51, 0][..], &behind_length(&given.section, MOST_CUE), &behind].concat()
}

/// The entry of a lent section.
pub fn section_bytes(which: u8, section: &[u8]) -> Vec<u8> {
    [&[0x4C, which][..], &behind_length(section, MOST_LENT)].concat()
}

/// The entry of a rolling card's call.
pub fn rolling_bytes(call: &rolling::Call) -> Vec<u8> {
    match call {
        rolling::Call::Plain(call) => card::input_bytes(call),
        rolling::Call::Instant { seconds, micros, reading } => {
            [&[0x49, 0][..], &bytes::words(&[*seconds, *micros, *reading])].concat()
        }
        rolling::Call::Reading(reading) => [&[0x57, 0][..], &bytes::words(&[*reading])].concat(),
    }
}
