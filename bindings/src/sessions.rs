//! The sessions that are held.

use crate::{door, Splicer, SESSIONS, SESSION_WORDS};

/// What a session that is held is.
#[derive(Clone, Copy, Debug, PartialEq, Eq, Hash)]
pub enum State {
    /// The one on air.
    OnAir = 1,
    /// Started, with a higher one on air.
    Covered = 2,
    /// Accepted and not yet started.
    Waiting = 3,
}

/// A session that is held. Times are in ninths of a microsecond.
#[derive(Clone, Copy, Debug, PartialEq, Eq, Hash)]
pub struct Session {
    /// Its start.
    pub start: u64,
    /// Its end.
    pub end: u64,
    /// Its time on air up to the clock.
    pub played: u64,
    /// The connection.
    pub connection: u32,
    /// SessionID.
    pub session: u32,
    /// SpliceEventID.
    pub event: u32,
    /// The PriorSession that was asked for, also of one that has started; none for a timed one.
    pub prior: Option<u32>,
    /// AccessType, 0 to 9.
    pub access: u8,
    /// OverridePlaying.
    pub overrides: bool,
    /// What it asks of the multiplexer, 1 to 10.
    pub mux: u8,
    /// On air, covered or waiting.
    pub state: State,
}

/// A row as the archive fills it: the header's `struct splicer_session`.
#[derive(Clone, Copy, Default)]
#[repr(C)]
pub(crate) struct Held {
    start: u64,
    end: u64,
    played: u64,
    connection: u32,
    session: u32,
    event: u32,
    prior: u32,
    access: u32,
    overrides: u32,
    mux: u32,
    state: u32,
}

// The number that the header asserts of its struct, and the order in which the halves of a word stand.
const _: () = assert!(size_of::<Held>() == 8 * SESSION_WORDS);
const _: () = assert!(cfg!(target_endian = "little"));

/// A timed session has no PriorSession.
const NO_PRIOR: u32 = 0xFFFF_FFFF;

impl Held {
    fn session(self) -> Session {
        Session {
            start: self.start,
            end: self.end,
            played: self.played,
            connection: self.connection,
            session: self.session,
            event: self.event,
            prior: (self.prior != NO_PRIOR).then_some(self.prior),
            access: self.access as u8,
            overrides: self.overrides == 1,
            mux: self.mux as u8,
            state: match self.state {
                1 => State::OnAir,
                2 => State::Covered,
                _ => State::Waiting,
            },
        }
    }
}

/// The sessions that were held when [`Splicer::sessions`] was called.
#[derive(Clone)]
pub struct Sessions {
    rows: [Held; SESSIONS],
    held: usize,
    at: usize,
}

impl Iterator for Sessions {
    type Item = Session;

    fn next(&mut self) -> Option<Session> {
        let row = self.rows[..self.held].get(self.at)?;
        self.at += 1;
        Some(row.session())
    }

    fn size_hint(&self) -> (usize, Option<usize>) {
        let left = self.held - self.at;
        (left, Some(left))
    }
}

impl ExactSizeIterator for Sessions {}

impl Splicer {
    /// Every session that is held, at most [`SESSIONS`]: the started ones from the highest AccessType
    /// down, so that the first is on air and the others are covered, then those that wait, in order of
    /// start. It only reads.
    ///
    /// ```
    /// let (channel, _) = splicer::Splicer::fresh(&splicer::name(b"CH1"));
    /// assert_eq!(channel.sessions().len(), 0);
    /// ```
    pub fn sessions(&self) -> Sessions {
        let mut rows = [Held::default(); SESSIONS];
        let (words, bytes) = (self.words.as_ptr(), self.bytes.as_ptr());
        let row_words = SESSIONS * SESSION_WORDS;
        // SAFETY: the state came from fresh, and is only read; the rows are a local of their own.
        let held = unsafe { door::sessions(words, bytes, rows.as_mut_ptr(), row_words) };
        Sessions { rows, held, at: 0 }
    }
}
