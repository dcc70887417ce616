//! The calls of the engine that only remembers over any lent log, also one of another length than
//! [`LOG`](super::LOG), which each of them refuses with 13 and leaves as it is; and the referee's, with
//! the words that they give.
//!
//! What each unsafe call rests on: any bytes may be lent as a log, each slice is as long as the length
//! that is handed over with it, and what is lent for writing overlaps nothing.

use super::Refused;
use crate::door::{Counts, REPLY};
use crate::{Handled, Maps, BYTES, NAME, OUT, WORDS};
use linked::{recall_close, recall_fresh, recall_message, recall_open, recall_tick};

extern "C" {
    #[link_name = "splicer_bench_2_referee_fresh"]
    fn referee_fresh(
        name: *const u8,
        words: *mut u64,
        bytes: *mut u8,
        stage: *mut u64,
        reply: *mut u64,
    );

    #[link_name = "splicer_bench_2_referee_feed"]
    fn referee_feed(
        words: *mut u64,
        bytes: *mut u8,
        due: *mut u8,
        kept: *mut u8,
        stage: *mut u64,
        read: *const u8,
        length: usize,
        reply: *mut u64,
    );

    #[link_name = "splicer_bench_2_referee_end"]
    fn referee_end(stage: *const u64, reply: *mut u64);

    #[link_name = "splicer_bench_2_referee_due"]
    fn referee_due(stage: *const u64, part: *mut u64);
}

/// The functions themselves, for a comparison that looks at every word of a reply. What they need is said above.
#[doc(hidden)]
pub mod linked {
    extern "C" {
        #[link_name = "splicer_bench_2_recall_fresh"]
        pub fn recall_fresh(log: *mut u8, size: usize, reply: *mut u64);

        #[link_name = "splicer_bench_2_recall_open"]
        pub fn recall_open(log: *mut u8, size: usize, conn: u32, reply: *mut u64);

        #[link_name = "splicer_bench_2_recall_close"]
        pub fn recall_close(
            log: *mut u8,
            size: usize,
            conn: u32,
            out: *mut u8,
            room: usize,
            reply: *mut u64,
        );

        #[link_name = "splicer_bench_2_recall_message"]
        pub fn recall_message(
            log: *mut u8,
            size: usize,
            conn: u32,
            read: *const u8,
            length: usize,
            primary: *const u8,
            primary_length: usize,
            insertion: *const u8,
            insertion_length: usize,
            out: *mut u8,
            room: usize,
            reply: *mut u64,
        );

        #[link_name = "splicer_bench_2_recall_tick"]
        pub fn recall_tick(
            log: *mut u8,
            size: usize,
            seconds: u32,
            micros: u32,
            out: *mut u8,
            room: usize,
            reply: *mut u64,
        );
    }
}

/// Lends the words of a reply to a call. Gives what it did, or why it was refused.
fn replied(call: impl FnOnce(*mut u64)) -> Result<Counts, Refused> {
    let mut reply = [0; REPLY];
    call(reply.as_mut_ptr());
    let number = reply[0];
    if number == 0 {
        return Ok(Counts::from(reply));
    }
    // The engine gives the numbers of `Refused` alone; another archive is better noticed here.
    let refused = u32::try_from(number).ok().and_then(Refused::of);
    Err(refused.expect("a house number"))
}

/// Clears the log: no call is kept. Refused: 13, for another length.
pub fn fresh(log: &mut [u8]) -> Result<(), Refused> {
    let (kept, size) = (log.as_mut_ptr(), log.len());
    // SAFETY: the log is lent for writing; the reply is a local.
    let cleared = replied(|reply| unsafe { recall_fresh(kept, size, reply) });
    cleared.map(|_| ())
}

/// As [`Recall::open`](super::Recall::open).
pub fn open(log: &mut [u8], connection: u32) -> Result<(), Refused> {
    let (kept, size) = (log.as_mut_ptr(), log.len());
    // SAFETY: as for fresh.
    let opened = replied(|reply| unsafe { recall_open(kept, size, connection, reply) });
    opened.map(|_| ())
}

/// As [`Recall::close`](super::Recall::close).
pub fn close<'o>(log: &mut [u8], connection: u32, out: &'o mut [u8]) -> Result<&'o [u8], Refused> {
    let (kept, size) = (log.as_mut_ptr(), log.len());
    let (at, room) = (out.as_mut_ptr(), out.len());
    // SAFETY: the log and `out` are lent for writing, so apart.
    let done = replied(|reply| unsafe {
        recall_close(kept, size, connection, at, room, reply);
    })?;
    Ok(&out[..done.written])
}

/// As [`Recall::message_with`](super::Recall::message_with).
pub fn message<'o>(
    log: &mut [u8],
    connection: u32,
    read: &[u8],
    maps: Maps<'_>,
    out: &'o mut [u8],
) -> Result<Handled<'o>, Refused> {
    let (kept, size) = (log.as_mut_ptr(), log.len());
    let (from, length) = (read.as_ptr(), read.len());
    let (primary, first) = (maps.primary.as_ptr(), maps.primary.len());
    let (insertion, second) = (maps.insertion.as_ptr(), maps.insertion.len());
    let (at, room) = (out.as_mut_ptr(), out.len());
    // SAFETY: the log and `out` are lent for writing, so apart from all else; what was read and the
    // sections only for reading.
    let done = replied(|reply| unsafe {
        recall_message(
            kept, size, connection, from, length, primary, first, insertion, second, at, room,
            reply,
        );
    })?;
    Ok(Handled {
        consumed: done.consumed,
        written: &out[..done.written],
        moved: done.moved,
    })
}

/// As [`Recall::tick`](super::Recall::tick).
pub fn tick<'o>(
    log: &mut [u8],
    seconds: u32,
    micros: u32,
    out: &'o mut [u8],
) -> Result<&'o [u8], Refused> {
    let (kept, size) = (log.as_mut_ptr(), log.len());
    let (at, room) = (out.as_mut_ptr(), out.len());
    // SAFETY: as for close.
    let done = replied(|reply| unsafe {
        recall_tick(kept, size, seconds, micros, at, room, reply);
    })?;
    Ok(&out[..done.written])
}

/// Words of a referee's stage and of a verdict, and the longest entry: a mark and a message.
const STAGE: usize = 7;
const VERDICT: usize = 4;
const ENTRY: usize = 4098;

/// A referee's memory, as `struct splicer_referee` of the header. Only [`RefereeState::fresh`] makes
/// one, and only the calls change it.
#[derive(Clone)]
#[repr(C)]
pub struct RefereeState {
    words: [u64; WORDS],
    bytes: [u8; BYTES],
    stage: [u64; STAGE],
    due: [u8; OUT],
    kept: [u8; ENTRY],
}

impl RefereeState {
    /// Before any byte, of a card of this name, and 0; or of an empty name, and 9.
    pub fn fresh(name: &[u8; NAME]) -> (Self, u32) {
        let mut state = RefereeState {
            words: [0; WORDS],
            bytes: [0; BYTES],
            stage: [0; STAGE],
            due: [0; OUT],
            kept: [0; ENTRY],
        };
        let mut reply = [0; REPLY];
        let (words, bytes) = (state.words.as_mut_ptr(), state.bytes.as_mut_ptr());
        let (stage, reply_at) = (state.stage.as_mut_ptr(), reply.as_mut_ptr());
        // SAFETY: each array has the length that the header says, and they are apart.
        unsafe { referee_fresh(name.as_ptr(), words, bytes, stage, reply_at) };
        // A house number is small.
        (state, reply[0] as u32)
    }

    /// The next bytes. Kind, number, place and good of the verdict so far.
    pub fn feed(&mut self, read: &[u8]) -> [u64; VERDICT] {
        let mut reply = [0; VERDICT];
        let (words, bytes) = (self.words.as_mut_ptr(), self.bytes.as_mut_ptr());
        let (due, kept) = (self.due.as_mut_ptr(), self.kept.as_mut_ptr());
        let (stage, at) = (self.stage.as_mut_ptr(), reply.as_mut_ptr());
        let (from, length) = (read.as_ptr(), read.len());
        // SAFETY: as for fresh; the memory came from fresh and the feeds since.
        unsafe { referee_feed(words, bytes, due, kept, stage, from, length, at) };
        reply
    }

    /// The verdict if the recording ended here.
    pub fn end(&self) -> [u64; VERDICT] {
        let mut reply = [0; VERDICT];
        // SAFETY: as for feed.
        unsafe { referee_end(self.stage.as_ptr(), reply.as_mut_ptr()) };
        reply
    }

    /// What is still due of the last call; once something was told, what was due then.
    pub fn due(&self) -> &[u8] {
        let mut part = [0; 2];
        // SAFETY: as for feed.
        unsafe { referee_due(self.stage.as_ptr(), part.as_mut_ptr()) };
        let [from, length] = part.map(|word| word as usize);
        &self.due[from..from + length]
    }
}
