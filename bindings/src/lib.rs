//! The proved splicer core for drivers in Rust: `include/splicer.h` as a safe interface.
//!
//! One [`Splicer`] is one output channel with its connections 0 to 3. The core allocates nothing
//! and has no globals, and a `Splicer` holds no pointers: it may be moved, cloned and sent to a
//! thread.
//! What the header leaves to the driver is held here by the types: a `Splicer` comes from
//! [`Splicer::fresh`] only, or by the unsafe [`Splicer::restored`] from one that did, and is changed
//! by the calls only, one at a time, and what is lent to a call overlaps nothing. Any connection,
//! bytes, time and length of a buffer may be handed in: the call tests them and answers with a
//! house number, a [`Refusal`].
//!
//! A whole small driver; `alive` came from a server's socket:
//!
//! ```
//! use splicer::{records, result, Refusal, Splicer, OUT};
//!
//! # fn main() -> Result<(), Refusal> {
//! let (mut channel, named) = Splicer::fresh(&splicer::name(b"CH1"));
//! named?;
//! let mut out = [0; OUT];
//! channel.open(0)?;
//! channel.tick(1000, 0, &mut out)?;
//!
//! let alive = [0, 5, 0, 8, 255, 255, 255, 255, 0, 0, 3, 232, 0, 0, 0, 0];
//! // half of it was read: read on
//! assert_eq!(channel.message(0, &alive[..10], &mut out), Err(Refusal::Short));
//! let handled = channel.message(0, &alive, &mut out)?;
//! assert_eq!(handled.consumed, 16);
//! for record in records(handled.written) {
//!     // to send: `record.message`, to `record.connection`
//!     assert_eq!((record.connection, record.result), (0, result::ACCESS_DENIED));
//! }
//! let logged = channel.close(0, &mut out)?;
//! assert!(logged.is_empty());
//! # Ok(())
//! # }
//! ```
//!
//! What each unsafe call rests on: the parts have the lengths that the core takes (686 words and 1,056
//! bytes, by their types), and a state came from `fresh` and was changed by the calls only, since its
//! fields are private. The reason beside each call says the rest.
#![no_std]
#![warn(missing_docs)]
#![cfg_attr(docsrs, feature(doc_cfg))]

#[cfg(feature = "bench")]
extern crate alloc;

mod air;
#[cfg(feature = "bench")]
#[cfg_attr(docsrs, doc(cfg(feature = "bench")))]
pub mod bench;
mod door;
mod ended;
pub mod recorder;
mod records;
mod rolling;
mod saved;
mod says;
mod sessions;
mod streams;
pub mod texts;

pub use air::{Air, Due};
use core::fmt;
pub use ended::Row;
pub use records::{message_id, records, result, Record, Records};
pub use rolling::RollingSplicer;
pub use saved::{NotSaved, SAVED};
pub use says::Says;
pub use sessions::{Session, Sessions, State};
pub use streams::{Stream, Streams, KEPT, STREAMS, STREAM_WORDS};

/// The version of the state and of the archive's functions, whose names carry it.
pub const VERSION: u32 = 7;
/// The version of the archive that was linked: [`VERSION`] * 1000, and what was added to it since.
///
/// ```
/// assert_eq!(splicer::archive_version() / 1000, u64::from(splicer::VERSION));
/// ```
pub fn archive_version() -> u64 {
    // SAFETY: it takes nothing and reads nothing.
    unsafe { door::version() }
}

/// Connections of a channel: 0 to 3.
pub const CONNECTIONS: usize = 4;
/// Bytes of a ChannelName.
pub const NAME: usize = 32;
/// Bytes of a message's header.
pub const HEADER: usize = 8;
/// The longest message: a header and 4,088 bytes of data.
pub const MESSAGE: usize = 4096;
/// An output buffer of this length takes the records of any call; a shorter one is refused.
pub const OUT: usize = 4096;
/// Bytes of the mark before each record.
pub const MARK: usize = 2;
/// Words of a [`Splicer`]'s memory.
pub const WORDS: usize = 686;
/// Bytes of a [`Splicer`]'s memory, behind its words.
pub const BYTES: usize = 1056;
/// The longest section that a message call may be lent.
pub const MAP_SECTION: usize = 1024;
/// The longest section of cues; the shortest has 20 bytes.
pub const CUE_SECTION: usize = 512;

/// The MuxPriorityValue (J.280, Table 8-11) that changes nothing: what a session without a
/// muxpriority_descriptor asks.
pub const MUX_AVERAGE: u8 = 5;

/// Rows of the page of what ended lately.
pub const ROWS: usize = 16;
/// The card with a rolling counter: the most ticks of 90 kHz from one good reading to the next.
pub const LONGEST_STEP: u32 = 8_100_000;
/// Where in the words what ended is kept, and in how many.
pub const ENDED: usize = 605;
/// See [`ENDED`].
pub const ENDED_WORDS: usize = 81;

/// The most sessions that are held: 64 that wait and 10 that have started.
pub const SESSIONS: usize = 74;
/// The 64-bit words of a session's row.
pub const SESSION_WORDS: usize = 7;

/// One output channel.
///
/// Two splicers are equal if their memory is. The same calls from `fresh` on give equal splicers, and
/// equal ones answer every call alike and stay equal. Two that show the same (name, clock,
/// primary time, connections and what they keep, sessions, what ended lately and in which places)
/// answer every call alike too, and are equal exactly if as many requests, or 64, 128 and so on more,
/// were accepted in the one as in the other: the ring of places goes one on with each.
#[derive(Clone, PartialEq, Eq)]
#[repr(C)]
pub struct Splicer {
    words: [u64; WORDS],
    bytes: [u8; BYTES],
}

// The numbers that the header asserts of its struct.
const _: () = assert!(size_of::<usize>() == 8);
const _: () = assert!(size_of::<Splicer>() == 6544);
const _: () = assert!(align_of::<Splicer>() == 8);
const _: () = assert!(core::mem::offset_of!(Splicer, bytes) == 5488);

/// The house numbers: why a call was refused. A refused call wrote nothing, consumed nothing and
/// changed nothing. As an error it says its number, and what that means:
///
/// ```
/// let refusal = splicer::Refusal::ClockBack;
/// assert_eq!(refusal.to_string(), "refused 3: clock earlier than the present one");
/// ```
#[derive(Clone, Copy, Debug, PartialEq, Eq, Hash)]
#[repr(u8)]
pub enum Refusal {
    /// Connection above 3: open, close, message.
    NoConnection = 1,
    /// Output buffer below 4,096 bytes: close, message, tick, instant, reading, cue.
    NoRoom = 2,
    /// Clock earlier than the present one: tick.
    ClockBack = 3,
    /// MessageSize above 4,088: message.
    Oversize = 4,
    /// Not yet a whole message: message. Read on and call again with more.
    Short = 5,
    /// Already open: open.
    AlreadyOpen = 6,
    /// Not open: close, message.
    NotOpen = 7,
    /// MicroSeconds above 999,999: tick, instant, cue.
    BadMicros = 8,
    /// Name without a zero byte: fresh.
    BadName = 9,
    /// A lent section over 1,024 bytes: message.
    LongSection = 10,
    /// A section not 3 + section_length bytes long, under 20 or over 512: cue.
    BadSection = 11,
    /// A second instant, or a reading before the instant, more than 90 s after the last good one or
    /// past the last second of the time field: instant, reading.
    Counter = 12,
    /// Other than sixteen rows: ended.
    NotSixteen = 16,
}

impl Refusal {
    /// The refusal of this house number.
    pub const fn of(number: u32) -> Option<Refusal> {
        Some(match number {
            1 => Refusal::NoConnection,
            2 => Refusal::NoRoom,
            3 => Refusal::ClockBack,
            4 => Refusal::Oversize,
            5 => Refusal::Short,
            6 => Refusal::AlreadyOpen,
            7 => Refusal::NotOpen,
            8 => Refusal::BadMicros,
            9 => Refusal::BadName,
            10 => Refusal::LongSection,
            11 => Refusal::BadSection,
            12 => Refusal::Counter,
            16 => Refusal::NotSixteen,
            _ => return None,
        })
    }

    /// Its house number.
    pub const fn number(self) -> u8 {
        self as u8
    }
}

impl fmt::Display for Refusal {
    fn fmt(&self, f: &mut fmt::Formatter<'_>) -> fmt::Result {
        write!(f, "refused {}: {}", self.number(), self.text())
    }
}

impl core::error::Error for Refusal {}

/// The program map sections of the two feeds, lent to [`Splicer::message_with`] and
/// [`Splicer::map`]. They are not parsed; an empty one adds nothing to an answer.
#[derive(Clone, Copy, Debug, Default, PartialEq, Eq)]
pub struct Maps<'m> {
    /// That of the primary channel.
    pub primary: &'m [u8],
    /// That of the channel that is inserted.
    pub insertion: &'m [u8],
}

/// What a good [`Splicer::message`] did.
#[derive(Clone, Copy, Debug, PartialEq, Eq)]
pub struct Handled<'o> {
    /// Bytes of the message, to be dropped from the front of what was read.
    pub consumed: usize,
    /// The records, at the front of the lent output buffer. They may be none.
    pub written: &'o [u8],
    /// For a Splice_Request answered with 100 the places that its acceptance shifted: the sessions
    /// that wait, after any eviction, and start later than the new one, at most 63. Else 0; the other
    /// calls accept nothing.
    pub moved: u32,
}

/// A text as a ChannelName, with zeros behind it. One of 32 bytes or more leaves no zero byte, and
/// `fresh` refuses it.
pub const fn name(text: &[u8]) -> [u8; NAME] {
    let mut name = [0; NAME];
    let mut at = 0;
    while at < NAME && at < text.len() {
        name[at] = text[at];
        at += 1;
    }
    name
}

impl Splicer {
    /// A splicer with clock 0 and all connections closed. A name without a zero byte is refused
    /// (`BadName`, 9) and still gives a splicer, that of the empty name: document 01 has both come
    /// back, so this does too.
    pub fn fresh(name: &[u8; NAME]) -> (Splicer, Result<(), Refusal>) {
        let mut made = Splicer {
            words: [0; WORDS],
            bytes: [0; BYTES],
        };
        let (words, bytes) = made.parts();
        // SAFETY: fresh takes whatever the parts hold; they are fields of one struct, so apart.
        let named = door::replied(|reply| unsafe {
            door::fresh(name.as_ptr(), words, bytes, reply);
        });
        (made, named.map(|_| ()))
    }

    /// A server has connected. Refused: 1, 6.
    pub fn open(&mut self, connection: u32) -> Result<(), Refusal> {
        let (words, bytes) = self.parts();
        // SAFETY: the state came from fresh, as the fields are private; they do not overlap.
        let opened = door::replied(|reply| unsafe {
            door::open(words, bytes, connection, reply);
        });
        opened.map(|_| ())
    }

    /// The connection is gone. The records are not sent but logged. Refused: 1, 2, 7.
    pub fn close<'o>(&mut self, connection: u32, out: &'o mut [u8]) -> Result<&'o [u8], Refusal> {
        let (words, bytes) = self.parts();
        let (at, room) = (out.as_mut_ptr(), out.len());
        // SAFETY: the state came from fresh; `out` is lent for writing, so it overlaps nothing.
        let done = door::replied(|reply| unsafe {
            door::close(words, bytes, connection, at, room, reply);
        })?;
        Ok(&out[..done.written])
    }

    /// Handles the first message of the bytes read so far from a connection, with empty [`Maps`].
    /// Refused: 1, 2, 7, 5, 4.
    pub fn message<'o>(
        &mut self,
        connection: u32,
        read: &[u8],
        out: &'o mut [u8],
    ) -> Result<Handled<'o>, Refusal> {
        self.message_with(connection, read, Maps::default(), out)
    }

    /// The same with the sections of the two feeds: a GetConfig_Request is answered with that of the
    /// feed on air. Refused: 1, 2, 7, 10, 5, 4.
    pub fn message_with<'o>(
        &mut self,
        connection: u32,
        read: &[u8],
        maps: Maps<'_>,
        out: &'o mut [u8],
    ) -> Result<Handled<'o>, Refusal> {
        let (words, bytes) = self.parts();
        let (from, length) = (read.as_ptr(), read.len());
        let (primary, first) = (maps.primary.as_ptr(), maps.primary.len());
        let (insertion, second) = (maps.insertion.as_ptr(), maps.insertion.len());
        let (at, room) = (out.as_mut_ptr(), out.len());
        // SAFETY: the state came from fresh; `self` and `out` are lent for writing, so apart, and
        // the sections only for reading.
        let done = door::replied(|reply| unsafe {
            door::message(
                words, bytes, connection, from, length, primary, first, insertion, second, at,
                room, reply,
            );
        })?;
        Ok(Handled {
            consumed: done.consumed,
            written: &out[..done.written],
            moved: done.moved,
        })
    }

    /// Brings the clock to a time and does what is due until then. Refused: 2, 8, 3.
    pub fn tick<'o>(
        &mut self,
        seconds: u32,
        micros: u32,
        out: &'o mut [u8],
    ) -> Result<&'o [u8], Refusal> {
        let (words, bytes) = self.parts();
        let (at, room) = (out.as_mut_ptr(), out.len());
        // SAFETY: the state came from fresh; `out` is lent for writing, so it overlaps nothing.
        let done = door::replied(|reply| unsafe {
            door::tick(words, bytes, seconds, micros, at, room, reply);
        })?;
        Ok(&out[..done.written])
    }

    /// How many sessions of each connection wait: accepted, and neither started nor ended. It only
    /// reads, in a few instructions however many wait.
    ///
    /// ```
    /// let (channel, _) = splicer::Splicer::fresh(&splicer::name(b"CH1"));
    /// assert_eq!(channel.waiting(), [0; splicer::CONNECTIONS]);
    /// ```
    pub fn waiting(&self) -> [u64; CONNECTIONS] {
        let mut counts = [0; CONNECTIONS];
        let (words, bytes) = (self.words.as_ptr(), self.bytes.as_ptr());
        // SAFETY: the state came from fresh; the counts are a local of their own, so apart.
        unsafe { door::waiting(words, bytes, counts.as_mut_ptr()) };
        counts
    }

    /// The time on the primary channel, in which nothing was on air, up to the clock: in ninths of a
    /// microsecond since clock 0, so the first tick adds its whole time. Of a stretch, take the
    /// difference of two reads.
    ///
    /// ```
    /// # fn main() -> Result<(), splicer::Refusal> {
    /// # let mut out = [0; splicer::OUT];
    /// let (mut channel, _) = splicer::Splicer::fresh(&splicer::name(b"CH1"));
    /// channel.tick(1000, 0, &mut out)?;
    /// let before = channel.primary();
    /// channel.tick(1001, 500_000, &mut out)?;
    /// assert_eq!(channel.primary() - before, 1_500_000 * 9);
    /// # Ok(())
    /// # }
    /// ```
    pub fn primary(&self) -> u64 {
        // SAFETY: the state came from fresh; both parts are lent for reading.
        unsafe { door::primary(self.words.as_ptr(), self.bytes.as_ptr()) }
    }

    /// Of the lent sections the one of the feed that is on air: the insertion's exactly when a session
    /// is on air. It only reads.
    pub fn map<'m>(&self, maps: &Maps<'m>) -> &'m [u8] {
        let (words, bytes) = (self.words.as_ptr(), self.bytes.as_ptr());
        // SAFETY: the state came from fresh, and is only read.
        match unsafe { door::map(words, bytes) } {
            0 => maps.primary,
            _ => maps.insertion,
        }
    }

    /// What the one on air asked of the multiplexer: 1 to 10; [`MUX_AVERAGE`] if it asked nothing or
    /// nothing is on air. It only reads. It changes with starts, ends, aborts and closes: a covered
    /// session that is on air again writes no record.
    pub fn mux(&self) -> u8 {
        // SAFETY: the state came from fresh.
        unsafe { door::mux(self.words.as_ptr(), self.bytes.as_ptr()) as u8 }
    }

    /// A section of cues (SCTE 35) from the feed, whole, and a PTS of its time base with the UTC
    /// instant that belongs to it; the PTS counts modulo 2^33, and every cue still expected is at or
    /// after it. Gives a Cue_Request for every initialised connection, with the cue's UTC time or all
    /// ones; 117 for a section that is bad; nothing for one that concerns no server. It only reads the
    /// splicer. Refused: 2, 8, 11.
    pub fn cue<'o>(
        &self,
        section: &[u8],
        pts: u64,
        seconds: u32,
        micros: u32,
        out: &'o mut [u8],
    ) -> Result<&'o [u8], Refusal> {
        let given = [(pts >> 32) as u32, pts as u32, seconds, micros];
        let (words, bytes) = (self.words.as_ptr(), self.bytes.as_ptr());
        let (from, length) = (section.as_ptr(), section.len());
        let (at, room) = (out.as_mut_ptr(), out.len());
        // SAFETY: the state came from fresh and is lent for reading; `out` is lent for writing and
        // `given` is a local, so nothing overlaps.
        let done = door::replied(|reply| unsafe {
            door::cue(words, bytes, from, length, given.as_ptr(), at, room, reply);
        })?;
        Ok(&out[..done.written])
    }

    /// What is lent to every call.
    fn parts(&mut self) -> (*mut u64, *mut u8) {
        (self.words.as_mut_ptr(), self.bytes.as_mut_ptr())
    }
}

/// Its content is the core's.
impl fmt::Debug for Splicer {
    fn fmt(&self, f: &mut fmt::Formatter<'_>) -> fmt::Result {
        f.debug_struct("Splicer").finish_non_exhaustive()
    }
}
