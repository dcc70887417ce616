//! A recorder: each call goes to a sink in the card program's mark, and behind it what was written
//! for it, as `include/splicer_record.h` does. It is the format that the checker of other
//! splicers reads, the referee and the desk's program. Names, lent sections, cues and a rolling
//! card's calls have marks that desk and the second program read; to checker and referee they are
//! unknown.
//!
//! Left out are calls that the marks cannot hold and that changed nothing: those refused with 2 or
//! 5, and a message to a connection that is not there or not open of which not all bytes were read.
//! A connection above 255 is written as 255. A recording is that of one channel from
//! [`Splicer::fresh`] on; without [`Recorder::name`] the ChannelName is kept beside it.
//!
//! ```
//! # fn main() -> Result<(), splicer::Refusal> {
//! use splicer::{recorder::Recorder, Splicer};
//!
//! let (mut channel, _) = Splicer::fresh(&splicer::name(b"CH1"));
//! let mut recording = Vec::new();
//! let mut recorder = Recorder::new(|bytes: &[u8]| recording.extend_from_slice(bytes));
//! recorder.open(&mut channel, 0)?;
//! assert!(recorder.open(&mut channel, 0).is_err());
//! drop(recorder);
//! // two opens, the second with its refusal, 6
//! assert_eq!(recording, [0x4F, 0, 0x4F, 0, 0x45, 6]);
//! # Ok(())
//! # }
//! ```

use crate::{Handled, Maps, Refusal, RollingSplicer, Splicer};
use crate::{CUE_SECTION, HEADER, MAP_SECTION, MESSAGE, NAME};

/// Where a recording goes.
pub trait Sink {
    /// Takes the next bytes, in order.
    fn put(&mut self, bytes: &[u8]);
}

impl<F: FnMut(&[u8])> Sink for F {
    fn put(&mut self, bytes: &[u8]) {
        self(bytes);
    }
}

/// The calls that both cards have: [`Splicer`] and [`RollingSplicer`].
pub trait Channel {
    /// [`Splicer::open`].
    fn open(&mut self, connection: u32) -> Result<(), Refusal>;
    /// [`Splicer::close`].
    fn close<'o>(&mut self, connection: u32, out: &'o mut [u8]) -> Result<&'o [u8], Refusal>;
    /// [`Splicer::message_with`].
    fn message_with<'o>(
        &mut self,
        connection: u32,
        read: &[u8],
        maps: Maps<'_>,
        out: &'o mut [u8],
    ) -> Result<Handled<'o>, Refusal>;
    /// [`Splicer::cue`].
    fn cue<'o>(
        &self,
        section: &[u8],
        pts: u64,
        seconds: u32,
        micros: u32,
        out: &'o mut [u8],
    ) -> Result<&'o [u8], Refusal>;
}

macro_rules! channel {
    ($kind:ident) => {
        impl Channel for $kind {
            fn open(&mut self, connection: u32) -> Result<(), Refusal> {
                $kind::open(self, connection)
            }

            fn close<'o>(
                &mut self,
                connection: u32,
                out: &'o mut [u8],
            ) -> Result<&'o [u8], Refusal> {
                $kind::close(self, connection, out)
            }

            fn message_with<'o>(
                &mut self,
                connection: u32,
                read: &[u8],
                maps: Maps<'_>,
                out: &'o mut [u8],
            ) -> Result<Handled<'o>, Refusal> {
                $kind::message_with(self, connection, read, maps, out)
            }

            fn cue<'o>(
                &self,
                section: &[u8],
                pts: u64,
                seconds: u32,
                micros: u32,
                out: &'o mut [u8],
            ) -> Result<&'o [u8], Refusal> {
                $kind::cue(self, section, pts, seconds, micros, out)
            }
        }
    };
}

channel!(Splicer);
channel!(RollingSplicer);

/// A section that message calls lend, by its feed.
#[derive(Clone, Copy, Debug, PartialEq, Eq, Hash)]
pub enum Feed {
    /// The primary channel's.
    Primary,
    /// That of the channel that is inserted.
    Insertion,
}

/// The ChannelName that fresh was given: before all else that is recorded, or not at all.
pub fn record_name(sink: &mut impl Sink, name: &[u8; NAME]) {
    sink.put(&[0x4E, 0]);
    sink.put(name);
}

/// A section that changed, before the next message call that lends it; before any both are empty.
/// Of a longer one the first 1,025 bytes: the answers are the same.
pub fn record_section(sink: &mut impl Sink, feed: Feed, section: &[u8]) {
    record_lent(sink, [0x4C, feed as u8], section, MAP_SECTION + 1);
}

/// The entry of a cue call, without what was written for it. Of a longer section the first 513
/// bytes: the answer is the same.
pub fn record_cue(sink: &mut impl Sink, section: &[u8], pts: u64, seconds: u32, micros: u32) {
    record_lent(sink, [0x51, 0], section, CUE_SECTION + 1);
    sink.put(&pts.to_be_bytes());
    sink.put(&seconds.to_be_bytes());
    sink.put(&micros.to_be_bytes());
}

/// A mark, its second byte, and at most so many bytes of a section behind their length.
fn record_lent(sink: &mut impl Sink, mark: [u8; 2], section: &[u8], most: usize) {
    let taken = &section[..section.len().min(most)];
    sink.put(&mark);
    // At most 1,025, so it fits.
    sink.put(&(taken.len() as u16).to_be_bytes());
    if !taken.is_empty() {
        sink.put(taken);
    }
}

/// Makes the calls of a [`Splicer`], or of a [`RollingSplicer`], and records each.
pub struct Recorder<S> {
    sink: S,
}

impl<S: Sink> Recorder<S> {
    /// A recorder with this sink.
    pub const fn new(sink: S) -> Recorder<S> {
        Recorder { sink }
    }

    /// [`record_name`].
    pub fn name(&mut self, name: &[u8; NAME]) {
        record_name(&mut self.sink, name);
    }

    /// [`record_section`].
    pub fn section(&mut self, feed: Feed, section: &[u8]) {
        record_section(&mut self.sink, feed, section);
    }

    /// [`Splicer::open`], recorded.
    pub fn open(&mut self, splicer: &mut impl Channel, connection: u32) -> Result<(), Refusal> {
        let reply = splicer.open(connection);
        self.mark(0x4F, connection);
        self.reply(reply.map(|()| &[][..]));
        reply
    }

    /// [`Splicer::close`], recorded.
    pub fn close<'o>(
        &mut self,
        splicer: &mut impl Channel,
        connection: u32,
        out: &'o mut [u8],
    ) -> Result<&'o [u8], Refusal> {
        let reply = splicer.close(connection, out);
        if reply != Err(Refusal::NoRoom) {
            self.mark(0x43, connection);
            self.reply(reply);
        }
        reply
    }

    /// [`Splicer::message`], recorded.
    pub fn message<'o>(
        &mut self,
        splicer: &mut impl Channel,
        connection: u32,
        read: &[u8],
        out: &'o mut [u8],
    ) -> Result<Handled<'o>, Refusal> {
        self.message_with(splicer, connection, read, Maps::default(), out)
    }

    /// [`Splicer::message_with`], recorded. The sections are not in its entry:
    /// [`Recorder::section`] says when they change.
    pub fn message_with<'o>(
        &mut self,
        splicer: &mut impl Channel,
        connection: u32,
        read: &[u8],
        maps: Maps<'_>,
        out: &'o mut [u8],
    ) -> Result<Handled<'o>, Refusal> {
        let reply = splicer.message_with(connection, read, maps, out);
        if let (Err(Refusal::NoRoom | Refusal::Short), _) | (_, None) = (&reply, first(read)) {
            return reply;
        }
        self.mark(0x4D, connection);
        self.sink.put(first(read).unwrap_or_default());
        self.reply(reply.as_ref().map(|h| h.written).map_err(|r| *r));
        reply
    }

    /// [`Splicer::tick`], recorded.
    pub fn tick<'o>(
        &mut self,
        splicer: &mut Splicer,
        seconds: u32,
        micros: u32,
        out: &'o mut [u8],
    ) -> Result<&'o [u8], Refusal> {
        let reply = splicer.tick(seconds, micros, out);
        if reply != Err(Refusal::NoRoom) {
            self.mark(0x54, 0);
            self.sink.put(&seconds.to_be_bytes());
            self.sink.put(&micros.to_be_bytes());
            self.reply(reply);
        }
        reply
    }

    /// [`Splicer::cue`], recorded: a section, and a PTS with Seconds and MicroSeconds of its instant.
    pub fn cue<'o>(
        &mut self,
        splicer: &impl Channel,
        section: &[u8],
        (pts, seconds, micros): (u64, u32, u32),
        out: &'o mut [u8],
    ) -> Result<&'o [u8], Refusal> {
        let reply = splicer.cue(section, pts, seconds, micros, out);
        if reply != Err(Refusal::NoRoom) {
            record_cue(&mut self.sink, section, pts, seconds, micros);
            self.reply(reply);
        }
        reply
    }

    /// [`RollingSplicer::instant`], recorded.
    pub fn instant<'o>(
        &mut self,
        card: &mut RollingSplicer,
        seconds: u32,
        micros: u32,
        reading: u32,
        out: &'o mut [u8],
    ) -> Result<&'o [u8], Refusal> {
        let reply = card.instant(seconds, micros, reading, out);
        if reply != Err(Refusal::NoRoom) {
            self.mark(0x49, 0);
            for number in [seconds, micros, reading] {
                self.sink.put(&number.to_be_bytes());
            }
            self.reply(reply);
        }
        reply
    }

    /// [`RollingSplicer::reading`], recorded.
    pub fn reading<'o>(
        &mut self,
        card: &mut RollingSplicer,
        reading: u32,
        out: &'o mut [u8],
    ) -> Result<&'o [u8], Refusal> {
        let reply = card.reading(reading, out);
        if reply != Err(Refusal::NoRoom) {
            self.mark(0x57, 0);
            self.sink.put(&reading.to_be_bytes());
            self.reply(reply);
        }
        reply
    }

    fn mark(&mut self, mark: u8, connection: u32) {
        let connection = u8::try_from(connection).unwrap_or(u8::MAX);
        self.sink.put(&[mark, connection]);
    }

    fn reply(&mut self, reply: Result<&[u8], Refusal>) {
        match reply {
            Ok([]) => {}
            Ok(written) => self.sink.put(written),
            Err(refusal) => self.sink.put(&[0x45, refusal.number()]),
        }
    }
}

/// The bytes of the first message that a recording takes: all of it; of one with a MessageSize
/// above 4,088 the header; none of one that is not there as a whole.
fn first(read: &[u8]) -> Option<&[u8]> {
    let header = read.get(..HEADER)?;
    let whole = HEADER + usize::from(u16::from_be_bytes([header[2], header[3]]));
    read.get(..if whole > MESSAGE { HEADER } else { whole })
}
