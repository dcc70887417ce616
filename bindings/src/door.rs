//! The archive's functions, as `include/splicer.h` declares them: their link names carry the
//! version, so that this crate and an archive of two versions do not link.

use crate::sessions::Held;
use crate::{Refusal, Row};

/// Words of a reply: the house number of a refusal or 0, the bytes consumed, the bytes written and
/// the places that an acceptance shifted.
pub const REPLY: usize = 4;

/// What a good call did.
pub struct Counts {
    pub consumed: usize,
    pub written: usize,
    pub moved: u32,
}

/// Those of a reply that has no house number.
impl From<[u64; REPLY]> for Counts {
    fn from([_, consumed, written, moved]: [u64; REPLY]) -> Counts {
        // A length is 8 bytes: lib.rs asserts it. At most 63 places are shifted.
        Counts {
            consumed: consumed as usize,
            written: written as usize,
            moved: moved as u32,
        }
    }
}

/// Lends the words of a reply to a call. Gives what it did, or why it was refused.
pub fn replied(call: impl FnOnce(*mut u64)) -> Result<Counts, Refusal> {
    let mut reply = [0; REPLY];
    call(reply.as_mut_ptr());
    numbered(reply[0])?;
    Ok(Counts::from(reply))
}

/// A house number as its refusal, 0 as none.
pub fn numbered(number: u64) -> Result<(), Refusal> {
    if number == 0 {
        return Ok(());
    }
    // The core gives the numbers of `Refusal` alone; another archive is better noticed here.
    let refusal = u32::try_from(number).ok().and_then(Refusal::of);
    Err(refusal.expect("a house number"))
}

extern "C" {
    #[link_name = "splicer_7_fresh"]
    pub fn fresh(name: *const u8, words: *mut u64, bytes: *mut u8, reply: *mut u64);

    #[link_name = "splicer_7_open"]
    pub fn open(words: *mut u64, bytes: *mut u8, conn: u32, reply: *mut u64);

    #[link_name = "splicer_7_close"]
    pub fn close(
        words: *mut u64,
        bytes: *mut u8,
        conn: u32,
        out: *mut u8,
        room: usize,
        reply: *mut u64,
    );

    #[link_name = "splicer_7_message"]
    pub fn message(
        words: *mut u64,
        bytes: *mut u8,
        conn: u32,
        read: *const u8,
        length: usize,
        primary: *const u8,
        primary_length: usize,
        insertion: *const u8,
        insertion_length: usize,
        out: *mut u8,
        room: usize,
        reply: *mut u64,
    );

    #[link_name = "splicer_7_tick"]
    pub fn tick(
        words: *mut u64,
        bytes: *mut u8,
        seconds: u32,
        micros: u32,
        out: *mut u8,
        room: usize,
        reply: *mut u64,
    );

    #[link_name = "splicer_7_waiting"]
    pub fn waiting(words: *const u64, bytes: *const u8, counts: *mut u64);

    #[link_name = "splicer_7_rolling_fresh"]
    pub fn rolling_fresh(
        name: *const u8,
        words: *mut u64,
        bytes: *mut u8,
        counter: *mut u64,
        reply: *mut u64,
    );

    #[link_name = "splicer_7_instant"]
    pub fn instant(
        words: *mut u64,
        bytes: *mut u8,
        counter: *mut u64,
        given: *const u32,
        out: *mut u8,
        room: usize,
        reply: *mut u64,
    );

    #[link_name = "splicer_7_reading"]
    pub fn reading(
        words: *mut u64,
        bytes: *mut u8,
        counter: *mut u64,
        reading: u32,
        out: *mut u8,
        room: usize,
        reply: *mut u64,
    );

    #[link_name = "splicer_7_primary"]
    pub fn primary(words: *const u64, bytes: *const u8) -> u64;

    #[link_name = "splicer_7_read_streams"]
    pub fn read_streams(read: *const u8, length: usize, list: *mut u64, kept: *mut u8) -> usize;

    #[link_name = "splicer_7_write_streams"]
    pub fn write_streams(list: *const u64, kept: *const u8, out: *mut u8, room: usize) -> usize;

    #[link_name = "splicer_7_mux"]
    pub fn mux(words: *const u64, bytes: *const u8) -> u64;

    #[link_name = "splicer_7_cue"]
    pub fn cue(
        words: *const u64,
        bytes: *const u8,
        section: *const u8,
        length: usize,
        given: *const u32,
        out: *mut u8,
        room: usize,
        reply: *mut u64,
    );

    #[link_name = "splicer_7_ended"]
    pub fn ended(ended: *const u64, words: usize, page: *mut Row, rows: usize) -> u64;

    #[link_name = "splicer_7_sessions"]
    pub fn sessions(
        words: *const u64,
        bytes: *const u8,
        rows: *mut Held,
        row_words: usize,
    ) -> usize;

    #[link_name = "splicer_7_map"]
    pub fn map(words: *const u64, bytes: *const u8) -> u64;

    #[link_name = "splicer_7_air"]
    pub fn air(words: *const u64, bytes: *const u8, air: *mut u64);

    #[link_name = "splicer_7_due"]
    pub fn due(words: *const u64, bytes: *const u8, due: *mut u64);

    #[link_name = "splicer_7_rolling_due"]
    pub fn rolling_due(words: *const u64, bytes: *const u8, counter: *const u64, due: *mut u64);

    #[link_name = "splicer_7_version"]
    pub fn version() -> u64;
}
