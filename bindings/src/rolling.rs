//! The card with a rolling counter: an instant and readings in place of ticks.

use crate::{door, Air, Due, Handled, Maps, Refusal, Row, Sessions, Splicer};
use crate::{BYTES, CONNECTIONS, NAME, ROWS, WORDS};
use core::fmt;

/// One output channel of the card with a rolling counter.
///
/// It has every call and read of [`Splicer`] but tick: the clock is brought on by one
/// [`RollingSplicer::instant`] and the [`RollingSplicer::reading`]s after it.
///
/// ```
/// # fn main() -> Result<(), splicer::Refusal> {
/// # let mut out = [0; splicer::OUT];
/// let (mut channel, _) = splicer::RollingSplicer::fresh(&splicer::name(b"CH1"));
/// // 1,000 s, and the counter reads 4,294,967,290; it rolls over
/// channel.instant(1000, 0, 4_294_967_290, &mut out)?;
/// let before = channel.primary();
/// channel.reading(84, &mut out)?;
/// // 90 ticks of 90 kHz are a thousand microseconds
/// assert_eq!(channel.primary() - before, 1000 * 9);
/// # Ok(())
/// # }
/// ```
#[derive(Clone, PartialEq, Eq)]
#[repr(C)]
pub struct RollingSplicer {
    core: Splicer,
    counter: [u64; 2],
}

// The numbers that the header asserts of its struct.
const _: () = assert!(size_of::<RollingSplicer>() == size_of::<Splicer>() + 16);
const _: () = assert!(core::mem::offset_of!(RollingSplicer, counter) == size_of::<Splicer>());

impl RollingSplicer {
    /// As [`Splicer::fresh`]; no instant was given.
    pub fn fresh(name: &[u8; NAME]) -> (RollingSplicer, Result<(), Refusal>) {
        let mut made = RollingSplicer {
            core: Splicer {
                words: [0; WORDS],
                bytes: [0; BYTES],
            },
            counter: [0; 2],
        };
        let (words, bytes) = made.core.parts();
        let counter = made.counter.as_mut_ptr();
        // SAFETY: fresh takes whatever the parts hold; they are fields of one struct, so apart.
        let named = door::replied(|reply| unsafe {
            door::rolling_fresh(name.as_ptr(), words, bytes, counter, reply);
        });
        (made, named.map(|_| ()))
    }

    /// As [`Splicer::open`].
    pub fn open(&mut self, connection: u32) -> Result<(), Refusal> {
        self.core.open(connection)
    }

    /// As [`Splicer::close`].
    pub fn close<'o>(&mut self, connection: u32, out: &'o mut [u8]) -> Result<&'o [u8], Refusal> {
        self.core.close(connection, out)
    }

    /// As [`Splicer::message`].
    pub fn message<'o>(
        &mut self,
        connection: u32,
        read: &[u8],
        out: &'o mut [u8],
    ) -> Result<Handled<'o>, Refusal> {
        self.core.message(connection, read, out)
    }

    /// As [`Splicer::message_with`].
    pub fn message_with<'o>(
        &mut self,
        connection: u32,
        read: &[u8],
        maps: Maps<'_>,
        out: &'o mut [u8],
    ) -> Result<Handled<'o>, Refusal> {
        self.core.message_with(connection, read, maps, out)
    }

    /// As [`Splicer::map`].
    pub fn map<'m>(&self, maps: &Maps<'m>) -> &'m [u8] {
        self.core.map(maps)
    }

    /// Once: the UTC time, and what the counter reads at it. Brings the clock there and does what is
    /// due until then. Refused: 2, 8, 12.
    pub fn instant<'o>(
        &mut self,
        seconds: u32,
        micros: u32,
        reading: u32,
        out: &'o mut [u8],
    ) -> Result<&'o [u8], Refusal> {
        let given = [seconds, micros, reading];
        let (words, bytes) = self.core.parts();
        let counter = self.counter.as_mut_ptr();
        let (at, room) = (out.as_mut_ptr(), out.len());
        // SAFETY: the state came from fresh and this type's calls, as the fields are private; `out`
        // is lent for writing and `given` is a local, so nothing overlaps.
        let done = door::replied(|reply| unsafe {
            door::instant(words, bytes, counter, given.as_ptr(), at, room, reply);
        })?;
        Ok(&out[..done.written])
    }

    /// What the 90 kHz counter reads now: moves the clock on by the ticks since the last good reading,
    /// at most 8,100,000 (90 s), through the rollover, and does what is due until then. Refused: 2, 12.
    /// A refused reading is not kept.
    pub fn reading<'o>(&mut self, reading: u32, out: &'o mut [u8]) -> Result<&'o [u8], Refusal> {
        let (words, bytes) = self.core.parts();
        let counter = self.counter.as_mut_ptr();
        let (at, room) = (out.as_mut_ptr(), out.len());
        // SAFETY: as for an instant.
        let done = door::replied(|reply| unsafe {
            door::reading(words, bytes, counter, reading, at, room, reply);
        })?;
        Ok(&out[..done.written])
    }

    /// As [`Splicer::waiting`].
    pub fn waiting(&self) -> [u64; CONNECTIONS] {
        self.core.waiting()
    }

    /// As [`Splicer::primary`].
    pub fn primary(&self) -> u64 {
        self.core.primary()
    }

    /// As [`Splicer::mux`].
    pub fn mux(&self) -> u8 {
        self.core.mux()
    }

    /// As [`Splicer::air`].
    pub fn air(&self) -> Option<Air> {
        self.core.air()
    }

    /// How many ticks of 90 kHz after the last good reading a reading would next do anything: fewer
    /// write nothing, so many are good, and write. None, if no good reading does, or the instant is not
    /// yet given; the counter must be read all the same, at the latest after
    /// [`LONGEST_STEP`](crate::LONGEST_STEP) ticks. It only reads. To be read before every sleep.
    ///
    /// ```
    /// let (channel, _) = splicer::RollingSplicer::fresh(&splicer::name(b"CH1"));
    /// assert_eq!(channel.due(), None);
    /// ```
    pub fn due(&self) -> Option<u32> {
        let mut row = [0; 2];
        let (words, bytes) = (self.core.words.as_ptr(), self.core.bytes.as_ptr());
        let counter = self.counter.as_ptr();
        // SAFETY: the state came from fresh and this type's calls, and is lent for reading; the row is
        // a local, so apart.
        unsafe { door::rolling_due(words, bytes, counter, row.as_mut_ptr()) };
        // At most LONGEST_STEP, so it fits.
        (row[0] == 1).then_some(row[1] as u32)
    }

    /// As [`Splicer::due`]: the same as an instant of the clock, whether a reading reaches it or not. To
    /// show people; [`RollingSplicer::due`] says when to read the counter.
    pub fn due_instant(&self) -> Option<Due> {
        self.core.due()
    }

    /// As [`Splicer::cue`].
    pub fn cue<'o>(
        &self,
        section: &[u8],
        pts: u64,
        seconds: u32,
        micros: u32,
        out: &'o mut [u8],
    ) -> Result<&'o [u8], Refusal> {
        self.core.cue(section, pts, seconds, micros, out)
    }

    /// As [`Splicer::ended`].
    pub fn ended(&self, rows: &mut [Row]) -> Result<(), Refusal> {
        self.core.ended(rows)
    }

    /// As [`Splicer::sessions`].
    pub fn sessions(&self) -> Sessions {
        self.core.sessions()
    }

    /// As [`Splicer::rows`].
    pub fn rows(&self) -> [Option<Row>; ROWS] {
        self.core.rows()
    }
}

/// Its content is the core's.
impl fmt::Debug for RollingSplicer {
    fn fmt(&self, f: &mut fmt::Formatter<'_>) -> fmt::Result {
        f.debug_struct("RollingSplicer").finish_non_exhaustive()
    }
}
