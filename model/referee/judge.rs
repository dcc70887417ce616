//! The judgement itself, bytes in, verdict out, in pieces of any cut.

use super::marks::{self, Before, Marks};
use super::player::Player;
use rules::recording::First;

/// "kind 0 in order, 1 a call, 2 an unknown mark, 3 cut (a cut last entry: CR 14's none)"
#[derive(Clone, Copy, Debug, PartialEq, Eq)]
pub enum Kind {
    InOrder,
    Call,
    Unknown,
    Cut,
}

/// "number: of the call, from 1, records before any are call 0's; place: of the call's mark, or of the unknown or cut one, from 0;
/// good: calls before it". All modulo 2^64.
#[derive(Clone, Copy, Debug, PartialEq, Eq)]
pub struct Verdict {
    pub kind: Kind,
    pub number: u64,
    pub place: u64,
    pub good: u64,
}

/// The rules of judging, by name.
#[derive(Clone, Copy)]
pub struct Judging {
    pub first: fn(&[u8], &Before) -> First,
    pub piece: fn(&mut Referee, &[u8]),
    pub record: fn(&mut Referee, &[u8]),
    pub call: fn(&mut Referee, &[u8]),
    pub section: fn(&mut Referee, &[u8]),
    pub unknown: fn(&mut Referee),
    pub end: fn(&Referee) -> Verdict,
    pub wrong: fn(&Referee) -> Verdict,
}

pub const JUDGING: Judging = Judging { first: marks::first, piece, record, call, section, unknown, end, wrong };

#[derive(Clone)]
pub struct Referee {
    pub player: Player,
    pub marks: Marks,
    /// The bytes of an entry that is not yet whole, and the place of its mark.
    pub rest: Vec<u8>,
    pub at: u64,
    /// Whether there was an entry.
    pub begun: bool,
    /// The last call's number and the place of its mark.
    pub number: u64,
    pub call_at: u64,
    /// What is still due of it.
    pub due: Vec<u8>,
    pub told: Option<Verdict>,
    /// The record at which a call was told; empty if what came there was none.
    pub found: Vec<u8>,
    pub judging: &'static Judging,
}

impl Referee {
    pub fn fresh(name: &[u8; 32], marks: Marks) -> Referee {
        Referee::fresh_by(name, marks, &JUDGING)
    }

    pub fn fresh_by(name: &[u8; 32], marks: Marks, judging: &'static Judging) -> Referee {
        Referee {
            player: Player::fresh(name),
            marks,
            rest: Vec::new(),
            at: 0,
            begun: false,
            number: 0,
            call_at: 0,
            due: Vec::new(),
            told: None,
            found: Vec::new(),
            judging,
        }
    }

    /// The next bytes; what was told, or that nothing was.
    pub fn feed(&mut self, bytes: &[u8]) -> Option<Verdict> {
        (self.judging.piece)(self, bytes);
        self.told
    }

    /// "the finding if the recording ended here"
    pub fn end(&self) -> Verdict {
        (self.judging.end)(self)
    }

    pub fn before(&self) -> Before {
        Before { marks: self.marks, entries: self.begun, card: self.player.card }
    }

    /// The call is told.
    pub fn tell(&mut self) {
        self.told = Some((self.judging.wrong)(self));
    }

    /// A whole entry.
    pub fn entry(&mut self, entry: &[u8]) {
        match entry[0] {
            0x52 | 0x45 => (self.judging.record)(self, entry),
            0x4C => (self.judging.section)(self, entry),
            0x4E => self.due = self.player.make(entry),
            _ => (self.judging.call)(self, entry),
        }
        self.begun = true;
    }
}

/// A recording in one piece.
pub fn refereed(recording: &[u8], name: &[u8; 32], marks: Marks) -> Verdict {
    let mut referee = Referee::fresh(name, marks);
    referee.feed(recording);
    referee.end()
}

/// "Once something was told, further bytes change nothing." An entry is judged when it is whole; an unknown mark, as soon as it is one.
pub fn piece(referee: &mut Referee, bytes: &[u8]) {
    let mut rest = std::mem::take(&mut referee.rest);
    rest.extend(bytes);
    let mut at = 0;
    while referee.told.is_none() && at < rest.len() {
        match (referee.judging.first)(&rest[at..], &referee.before()) {
            First::Whole(length) => {
                referee.entry(&rest[at..at + length]);
                at += length;
                referee.at = referee.at.wrapping_add(length as u64);
            }
            First::Cut { .. } => break,
            First::Unknown => (referee.judging.unknown)(referee),
        }
    }
    rest.drain(..at);
    referee.rest = rest;
}

/// A record must be the next that is due: what is due is made of whole ones, so it begins with this one or differs.
pub fn record(referee: &mut Referee, entry: &[u8]) {
    match referee.due.strip_prefix(entry) {
        Some(rest) => referee.due = rest.to_vec(),
        None => {
            referee.found = entry.to_vec();
            referee.tell();
        }
    }
}

/// At the next call nothing may be due any more.
pub fn call(referee: &mut Referee, entry: &[u8]) {
    if !referee.due.is_empty() {
        return referee.tell();
    }
    referee.number = referee.number.wrapping_add(1);
    referee.call_at = referee.at;
    referee.due = referee.player.make(entry);
}

/// "no calls: not counted, nothing is due for them; at 0x4C the records of the call before must be whole, and a record behind it is that
/// call's"
pub fn section(referee: &mut Referee, entry: &[u8]) {
    if !referee.due.is_empty() {
        return referee.tell();
    }
    referee.player.make(entry);
}

/// "At an unknown mark the referee judges as at the end: call N if something of it is still due, else the mark."
pub fn unknown(referee: &mut Referee) {
    match referee.due.is_empty() {
        true => referee.told = Some(here(referee, Kind::Unknown)),
        false => referee.tell(),
    }
}

/// "what was told; else call N, cut, or in order". "A cut last record is dropped, and the last call before it then needs only the
/// beginning of its due records."
pub fn end(referee: &Referee) -> Verdict {
    match referee.told {
        Some(told) => told,
        None if !referee.rest.is_empty() => here(referee, Kind::Cut),
        None if !referee.due.is_empty() => (referee.judging.wrong)(referee),
        None => here(referee, Kind::InOrder),
    }
}

/// The call last made is wrong.
pub fn wrong(referee: &Referee) -> Verdict {
    let (number, place) = (referee.number, referee.call_at);
    Verdict { kind: Kind::Call, number, place, good: number.saturating_sub(1) }
}

/// No call, at the entry that is not read.
pub fn here(referee: &Referee, kind: Kind) -> Verdict {
    Verdict { kind, number: referee.number, place: referee.at, good: referee.number }
}
