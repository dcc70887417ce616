//! For the bench: `include/splicer_bench.h` as a safe interface. The checker of recordings,
//! [`check`], the referee of one of any length as it comes, [`Referee`], and the engine that only
//! remembers, [`Recall`]. With the feature `bench` only, which links an archive of its own.

pub mod raw;
mod recall;
mod referee;

use crate::texts;
use core::fmt;
pub use recall::{Recall, Refused, LOG};
pub use referee::{Kind, Referee, Verdict};

/// The version of the archive's functions, whose names carry it.
pub const VERSION: u32 = 2;

/// The longest recording that is read.
pub const RECORDING: usize = 65536;

/// Words of the archive's reply: the house number or 0, 1 if a call differs, and its number or the
/// place of an unknown mark.
const REPLY: usize = 3;

/// What is found in a recording.
#[derive(Clone, Copy, Debug, PartialEq, Eq, Hash)]
pub enum Finding {
    /// 15: it is longer than [`RECORDING`].
    Longer,
    /// 14: an unknown mark, at this place, counted from 0.
    Unknown(usize),
    /// The first call whose records are not those that the rules give, counted from 1; records before
    /// any call are call 0's.
    Differs(usize),
    /// There is none.
    None,
}

impl Finding {
    /// Its house number, or 0.
    pub fn house_number(self) -> u32 {
        match self {
            Finding::Longer => 15,
            Finding::Unknown(_) => 14,
            Finding::Differs(_) | Finding::None => 0,
        }
    }
}

impl fmt::Display for Finding {
    fn fmt(&self, f: &mut fmt::Formatter<'_>) -> fmt::Result {
        let why = texts::refusal(self.house_number());
        match self {
            Finding::Longer => write!(f, "refused 15: {why}"),
            Finding::Unknown(at) => write!(f, "refused 14: {why}, at byte {at}"),
            Finding::Differs(call) => write!(f, "call {call}"),
            Finding::None => write!(f, "none"),
        }
    }
}

extern "C" {
    #[link_name = "splicer_bench_2_check"]
    fn check_recording(recording: *const u8, length: usize, reply: *mut u64);
}

/// Checks a recording of any splicer from fresh on, with the name "CH1" and buffers of 4,096 bytes.
/// The recording is only read.
///
/// ```
/// use splicer::bench::{check, Finding};
///
/// // open, close, and a second close with its refusal, 7; then the same without that
/// assert_eq!(check(&[0x4F, 0, 0x43, 0, 0x43, 0, 0x45, 7]), Finding::None);
/// assert_eq!(check(&[0x4F, 0, 0x43, 0, 0x43, 0]), Finding::Differs(3));
/// assert_eq!(check(b"O\0?").to_string(), "refused 14: unknown mark in the recording, at byte 2");
/// ```
pub fn check(recording: &[u8]) -> Finding {
    let mut reply = [0; REPLY];
    // SAFETY: a slice lives through the call and is `recording.len()` bytes long; the reply has the
    // words that the header says, and overlaps nothing.
    unsafe { check_recording(recording.as_ptr(), recording.len(), reply.as_mut_ptr()) };
    // A length is 8 bytes: lib.rs asserts it.
    match reply {
        [15, _, _] => Finding::Longer,
        [14, _, at] => Finding::Unknown(at as usize),
        [0, 1, number] => Finding::Differs(number as usize),
        [0, 0, _] => Finding::None,
        // The archive gives no other words; another archive is better noticed here.
        _ => panic!("a finding"),
    }
}
