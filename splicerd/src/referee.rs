//! The proved referee of recordings, fed with every call and its records as they are made, whether they are recorded or not. It knows the
//! marks of 02, CR 14: a channel with sections, or one that was handed a cue, is outside what it can judge, and that is said.

use crate::words;
use splicer::bench::{self, Kind, Verdict};
use std::fmt;

/// Bytes that are shown of what was due and of what was found.
const SHOWN: usize = 256;

/// A difference: what it told, what was still due then, and the entry that it was found in.
struct Difference {
    verdict: Verdict,
    due: Vec<u8>,
    entry: Vec<u8>,
}

/// One for each channel.
pub struct Referee {
    judge: bench::Referee,
    /// Bytes at the front of a recording that it is not fed with: the name's and the sections' entries.
    ahead: u64,
    /// Why it no longer judges, and the calls that it judged until then.
    outside: Option<(&'static str, u64)>,
    differs: Option<Difference>,
    /// For tests: this call, counted from 1, reaches it with a bit of its last byte changed.
    pub misheard: Option<u64>,
}

impl Referee {
    pub fn fresh(name: &[u8; splicer::NAME], ahead: usize) -> Referee {
        // a name of 1 to 31 bytes is never refused
        let (judge, _) = bench::Referee::fresh(name);
        Referee { judge, ahead: ahead as u64, outside: None, differs: None, misheard: None }
    }

    /// What follows is not among the marks that it knows; what it has told stands.
    pub fn leave(&mut self, why: &'static str) {
        if self.judges() && self.differs.is_none() {
            self.outside = Some((why, self.judge.end().good));
        }
    }

    /// Whether it hears what is made.
    pub fn judges(&self) -> bool {
        self.outside.is_none()
    }

    /// Whether it found a difference.
    pub fn differs(&self) -> bool {
        self.differs.is_some()
    }

    /// The next call with all its records. True if this is the first that differs.
    pub fn feed(&mut self, entry: &[u8]) -> bool {
        if self.outside.is_some() || self.differs.is_some() {
            return false;
        }
        if self.misheard.is_some_and(|call| call == self.judge.end().good + 1) {
            self.judge.feed(&misheard(entry));
        } else {
            self.judge.feed(entry);
        }
        // the entry is whole, so nothing may be due any more
        let verdict = self.judge.end();
        if verdict.kind == Kind::InOrder {
            return false;
        }
        self.differs = Some(Difference { verdict, due: self.judge.due().to_vec(), entry: entry.to_vec() });
        true
    }

    /// The calls that it found in order.
    pub fn good(&self) -> u64 {
        match (&self.differs, self.outside) {
            (Some(difference), _) => difference.verdict.good,
            (None, Some((_, calls))) => calls,
            (None, None) => self.judge.end().good,
        }
    }
}

/// Its word, for page and log.
impl fmt::Display for Referee {
    fn fmt(&self, f: &mut fmt::Formatter<'_>) -> fmt::Result {
        match (&self.differs, self.outside) {
            (Some(difference), _) => difference.told(self.ahead, f),
            (None, Some((why, 0))) => write!(f, "not judged: {why}"),
            (None, Some((why, calls))) => write!(f, "not judged: {why}; in order before: {calls}"),
            (None, None) => write!(f, "{} calls, all in order", self.good()),
        }
    }
}

impl Difference {
    fn told(&self, ahead: u64, f: &mut fmt::Formatter<'_>) -> fmt::Result {
        let Verdict { kind, number, place, .. } = self.verdict;
        let what = if kind == Kind::Call { "differs" } else { "no call that it knows" };
        write!(f, "call {number}, at byte {}: {what}; still due {}", place + ahead, shown(&self.due))?;
        write!(f, "; the call and its records are {}", shown(&self.entry))
    }
}

fn shown(bytes: &[u8]) -> String {
    match bytes {
        [] => "nothing".into(),
        _ if bytes.len() > SHOWN => format!("{}.. ({} bytes)", words::hex(&bytes[..SHOWN]), bytes.len()),
        _ => words::hex(bytes),
    }
}

/// The entry with a bit of its last byte changed.
fn misheard(entry: &[u8]) -> Vec<u8> {
    let mut heard = entry.to_vec();
    if let Some(last) = heard.last_mut() {
        *last ^= 1;
    }
    heard
}

#[cfg(test)]
mod tests {
    use super::*;

    fn fresh() -> Referee {
        Referee::fresh(&splicer::name(b"SPORT"), 34)
    }

    #[test]
    fn in_order_then_a_difference_for_good() {
        let mut referee = fresh();
        assert!(!referee.feed(&[0x4F, 0]) && !referee.feed(&[0x4F, 0, 0x45, 6]));
        assert_eq!(referee.to_string(), "2 calls, all in order");
        // a third open of the same connection, whose refusal is missing: told at once, at its mark behind 34 and 6 bytes
        assert!(referee.feed(&[0x4F, 0]));
        let told = "call 3, at byte 40: differs; still due 4506; the call and its records are 4F00";
        assert_eq!((referee.to_string(), referee.differs(), referee.good()), (told.into(), true, 2));
        assert!(!referee.feed(&[0x43, 0]));
        assert_eq!(referee.to_string(), told);
    }

    #[test]
    fn outside_what_it_knows() {
        let mut referee = fresh();
        referee.leave("sections");
        assert_eq!(referee.to_string(), "not judged: sections");
        let mut referee = fresh();
        assert!(!referee.feed(&[0x4F, 0]));
        referee.leave("cues");
        assert!(!referee.feed(&[0x51, 0]) && !referee.judges() && !referee.differs());
        assert_eq!(referee.to_string(), "not judged: cues; in order before: 1");
    }

    #[test]
    fn a_difference_stands_when_it_no_longer_judges() {
        let mut referee = fresh();
        assert!(referee.feed(&[0x43, 0]));
        referee.leave("cues");
        assert!(referee.differs() && referee.to_string().starts_with("call 1, at byte 34: differs; still due 4507"));
    }
}
