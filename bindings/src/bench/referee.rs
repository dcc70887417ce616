//! The referee, which follows a recording of any length as it comes.

use super::raw::RefereeState;
use crate::{texts, Refusal, NAME};
use alloc::boxed::Box;
use core::fmt;

/// What a verdict is about.
#[derive(Clone, Copy, Debug, PartialEq, Eq, Hash)]
pub enum Kind {
    /// 0: all is in order.
    InOrder,
    /// 1: a call's records are not those that the rules give.
    Call,
    /// 2: an unknown mark.
    Unknown,
    /// 3: the recording ends in the midst of an entry, which is left out, and nothing else is wrong:
    /// the last call before it needs only the beginning of its records.
    Cut,
}

/// What a referee tells. Numbers and places are counted modulo 2^64.
#[derive(Clone, Copy, Debug, PartialEq, Eq, Hash)]
pub struct Verdict {
    /// What it is about.
    pub kind: Kind,
    /// Of [`Kind::Call`]: the call's number, counted from 1; records before any call are call 0's.
    /// Else the calls so far.
    pub number: u64,
    /// Of [`Kind::Call`]: where its mark stands, counted from 0 (0 for call 0). Else that of the unknown
    /// mark, of the cut entry or of the next entry: how many bytes were gone through.
    pub place: u64,
    /// The calls before that one, or so far.
    pub good: u64,
}

impl Verdict {
    fn of(words: [u64; 4]) -> Verdict {
        let [kind, number, place, good] = words;
        let kind = match kind {
            0 => Kind::InOrder,
            1 => Kind::Call,
            2 => Kind::Unknown,
            3 => Kind::Cut,
            // The archive gives no other; another archive is better noticed here.
            _ => panic!("a kind of verdict"),
        };
        Verdict {
            kind,
            number,
            place,
            good,
        }
    }

    /// Whether something wrong was found: a call or an unknown mark. A cut end is nothing wrong.
    pub fn is_wrong(self) -> bool {
        matches!(self.kind, Kind::Call | Kind::Unknown)
    }
}

impl fmt::Display for Verdict {
    fn fmt(&self, f: &mut fmt::Formatter<'_>) -> fmt::Result {
        match self.kind {
            Kind::InOrder => write!(f, "none"),
            Kind::Call => write!(f, "call {}", self.number),
            Kind::Unknown => {
                let why = texts::refusal(14);
                write!(f, "refused 14: {why}, at byte {}", self.place)
            }
            Kind::Cut => write!(f, "none, cut at byte {}", self.place),
        }
    }
}

/// A referee: CR 14's judgement of a recording of any length, in pieces of any cut. It tells what stands
/// first: a call whose records are not those due, as soon as that is seen, or an unknown mark; the
/// recorder's marks of names, sections, cues and rolling cards are unknown ones to it. Once
/// something is told, further bytes change nothing. Some 15 KB, whatever the recording's length; it
/// allocates when it is made or cloned, and else nothing.
///
/// ```
/// use splicer::bench::{Kind, Referee};
///
/// let (mut referee, named) = Referee::fresh(&splicer::name(b"CH1"));
/// assert_eq!(named, Ok(()));
/// // open, close, and a second close, whose refusal, 7, is due: so far nothing is wrong
/// assert_eq!(referee.feed(&[0x4F, 0, 0x43, 0, 0x43]).kind, Kind::InOrder);
/// assert_eq!(referee.feed(&[0]).kind, Kind::InOrder);
/// assert_eq!(referee.due(), [0x45, 7]);
/// // if the recording ended here, or if another call came
/// assert_eq!(referee.end().to_string(), "call 3");
/// assert_eq!(referee.feed(&[0x4F, 0]).to_string(), "call 3");
/// ```
#[derive(Clone)]
pub struct Referee {
    state: Box<RefereeState>,
}

impl Referee {
    /// A referee of a card of this name, of which nothing was recorded yet. A name without a zero byte is
    /// refused (`BadName`, 9) and still gives a referee, that of the empty name, as
    /// [`Splicer::fresh`](crate::Splicer::fresh) does.
    pub fn fresh(name: &[u8; NAME]) -> (Referee, Result<(), Refusal>) {
        let (state, number) = RefereeState::fresh(name);
        let state = Box::new(state);
        let named = match number {
            0 => Ok(()),
            // Another archive is better noticed here.
            _ => Err(Refusal::of(number).expect("a house number")),
        };
        (Referee { state }, named)
    }

    /// The next bytes of the recording. The verdict so far, never [`Kind::Cut`].
    pub fn feed(&mut self, bytes: &[u8]) -> Verdict {
        Verdict::of(self.state.feed(bytes))
    }

    /// The verdict if the recording ended here. More may be fed.
    pub fn end(&self) -> Verdict {
        Verdict::of(self.state.end())
    }

    /// What is still due of the last call; once something was told, what was due then.
    pub fn due(&self) -> &[u8] {
        self.state.due()
    }
}

/// Its state is long: `end` and `due` tell of it.
impl fmt::Debug for Referee {
    fn fmt(&self, f: &mut fmt::Formatter<'_>) -> fmt::Result {
        f.debug_struct("Referee")
            .field("end", &self.end())
            .finish_non_exhaustive()
    }
}
