//! The engine that only remembers, with a log of its own.

use super::raw;
use crate::{texts, Handled, Maps, Refusal};
use alloc::{boxed::Box, vec};
use core::fmt;

/// Bytes of a log.
pub const LOG: usize = 65536;

/// Why a call of the engine that only remembers was refused. A refused call wrote nothing, consumed
/// nothing and left the log as it was.
#[derive(Clone, Copy, Debug, PartialEq, Eq, Hash)]
pub enum Refused {
    /// 13, from this engine alone and before all others: the log is not [`LOG`] bytes long, 256 calls or
    /// more are in it, or fewer than 4,098 of its bytes are free.
    Full,
    /// As the card refuses the call.
    Card(Refusal),
}

impl Refused {
    /// That of this house number.
    pub const fn of(number: u32) -> Option<Refused> {
        match (number, Refusal::of(number)) {
            (13, _) => Some(Refused::Full),
            (_, Some(refusal)) => Some(Refused::Card(refusal)),
            (_, None) => None,
        }
    }

    /// Its house number.
    pub const fn number(self) -> u8 {
        match self {
            Refused::Full => 13,
            Refused::Card(refusal) => refusal.number(),
        }
    }

    /// Why, in words.
    pub const fn text(self) -> &'static str {
        texts::refusal(self.number() as u32)
    }
}

impl From<Refusal> for Refused {
    fn from(refusal: Refusal) -> Refused {
        Refused::Card(refusal)
    }
}

impl fmt::Display for Refused {
    fn fmt(&self, f: &mut fmt::Formatter<'_>) -> fmt::Result {
        write!(f, "refused {}: {}", self.number(), self.text())
    }
}

impl core::error::Error for Refused {}

/// The engine that only remembers: one output channel with the name "CH1", whose
/// whole state is the log of the good calls. Until it first refuses with [`Refused::Full`], it answers
/// as a [`Splicer`](crate::Splicer) with that name does, byte for byte.
///
/// The log is the calls one behind the other in the card program's marks, a zero behind the last if
/// there is room: the card program can be fed with it. Any bytes of that length are a log, read up to
/// the first that begins no call. The calls that only read, cues and the rolling counter are not among
/// its calls.
///
/// ```
/// # fn main() -> Result<(), splicer::bench::Refused> {
/// let mut engine = splicer::bench::Recall::new();
/// engine.open(0)?;
/// assert_eq!(engine.log()[..3], [0x4F, 0, 0]);
/// let again = engine.open(0).expect_err("it is open");
/// assert_eq!(again.to_string(), "refused 6: already open");
/// # Ok(())
/// # }
/// ```
#[derive(Clone, PartialEq, Eq)]
pub struct Recall {
    log: Box<[u8; LOG]>,
}

impl Recall {
    /// A fresh one: no call is kept.
    pub fn new() -> Recall {
        let zeros = vec![0; LOG].into_boxed_slice();
        let log = zeros.try_into().expect("as long as it was made");
        let mut made = Recall { log };
        made.fresh();
        made
    }

    /// One that goes on behind the calls in a log, any [`LOG`] bytes; none for another length.
    pub fn from_log(log: &[u8]) -> Option<Recall> {
        let log = Box::<[u8]>::from(log).try_into().ok()?;
        Some(Recall { log })
    }

    /// The log, [`LOG`] bytes.
    pub fn log(&self) -> &[u8] {
        &self.log[..]
    }

    /// Clears the log. Never refused, as it has its length.
    pub fn fresh(&mut self) {
        // Another archive is better noticed here.
        raw::fresh(&mut self.log[..]).expect("a log of this length");
    }

    /// As [`Splicer::open`](crate::Splicer::open). Refused: 13, 1, 6.
    pub fn open(&mut self, connection: u32) -> Result<(), Refused> {
        raw::open(&mut self.log[..], connection)
    }

    /// As [`Splicer::close`](crate::Splicer::close). Refused: 13, 1, 2, 7.
    pub fn close<'o>(&mut self, connection: u32, out: &'o mut [u8]) -> Result<&'o [u8], Refused> {
        raw::close(&mut self.log[..], connection, out)
    }

    /// As [`Splicer::message`](crate::Splicer::message), with empty [`Maps`]. Refused: 13, 1, 2, 7, 5, 4.
    pub fn message<'o>(
        &mut self,
        connection: u32,
        read: &[u8],
        out: &'o mut [u8],
    ) -> Result<Handled<'o>, Refused> {
        self.message_with(connection, read, Maps::default(), out)
    }

    /// As [`Splicer::message_with`](crate::Splicer::message_with). Of what was read the first message is
    /// kept, and no section. Refused: 13, 1, 2, 7, 10, 5, 4.
    pub fn message_with<'o>(
        &mut self,
        connection: u32,
        read: &[u8],
        maps: Maps<'_>,
        out: &'o mut [u8],
    ) -> Result<Handled<'o>, Refused> {
        raw::message(&mut self.log[..], connection, read, maps, out)
    }

    /// As [`Splicer::tick`](crate::Splicer::tick). Refused: 13, 2, 8, 3.
    pub fn tick<'o>(
        &mut self,
        seconds: u32,
        micros: u32,
        out: &'o mut [u8],
    ) -> Result<&'o [u8], Refused> {
        raw::tick(&mut self.log[..], seconds, micros, out)
    }
}

impl Default for Recall {
    fn default() -> Recall {
        Recall::new()
    }
}

/// Its content is long: `log` gives it.
impl fmt::Debug for Recall {
    fn fmt(&self, f: &mut fmt::Formatter<'_>) -> fmt::Result {
        f.debug_struct("Recall").finish_non_exhaustive()
    }
}
