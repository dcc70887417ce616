//! A splicer saved as bytes, and restored. They hold a mark, [`VERSION`], the words (little-endian),
//! the bytes and a CRC-32 of all that, so that another version's and damaged ones are noticed. What
//! version 6 saved is restored: since then no word or byte of the state has moved.

use crate::{Splicer, BYTES, VERSION, WORDS};
use core::fmt;

const MARK: [u8; 4] = *b"SPLS";
const HEAD: usize = 8;
/// The versions whose state is this one's, word by word.
const ALIKE: [u32; 2] = [6, VERSION];
const SUM: usize = SAVED - 4;

/// Bytes of a saved [`Splicer`].
pub const SAVED: usize = HEAD + WORDS * 8 + BYTES + 4;

/// Why bytes are not restored.
#[derive(Clone, Copy, Debug, PartialEq, Eq)]
pub enum NotSaved {
    /// Another length or another mark: no saved splicer.
    Foreign,
    /// Saved by this version, whose state is another.
    Version(u32),
    /// The sum is another: damaged.
    Damaged,
}

impl fmt::Display for NotSaved {
    fn fmt(&self, f: &mut fmt::Formatter<'_>) -> fmt::Result {
        match self {
            NotSaved::Foreign => write!(f, "no saved splicer"),
            NotSaved::Version(of) => write!(f, "saved by version {of}, and this is {VERSION}"),
            NotSaved::Damaged => write!(f, "damaged since it was saved"),
        }
    }
}

impl core::error::Error for NotSaved {}

impl Splicer {
    /// The state as bytes, for [`Splicer::restored`].
    pub fn saved(&self) -> [u8; SAVED] {
        let mut to = [0; SAVED];
        to[..4].copy_from_slice(&MARK);
        to[4..HEAD].copy_from_slice(&VERSION.to_le_bytes());
        for (place, word) in to[HEAD..].chunks_exact_mut(8).zip(self.words) {
            place.copy_from_slice(&word.to_le_bytes());
        }
        to[SUM - BYTES..SUM].copy_from_slice(&self.bytes);
        let sum = crc(&to[..SUM]);
        to[SUM..].copy_from_slice(&sum.to_le_bytes());
        to
    }

    /// The splicer that was saved.
    ///
    /// # Safety
    /// The core relies on a state that `fresh` and the calls made, and on nothing else. The bytes
    /// must be those that [`Splicer::saved`] gave. Chance damage and another version are refused;
    /// bytes that someone made up with a right sum are not noticed.
    pub unsafe fn restored(from: &[u8]) -> Result<Splicer, NotSaved> {
        let word = |at: usize| [from[at], from[at + 1], from[at + 2], from[at + 3]];
        if from.len() < HEAD || from[..4] != MARK {
            return Err(NotSaved::Foreign);
        }
        let version = u32::from_le_bytes(word(4));
        if !ALIKE.contains(&version) {
            return Err(NotSaved::Version(version));
        }
        if from.len() != SAVED {
            return Err(NotSaved::Foreign);
        }
        if u32::from_le_bytes(word(SUM)) != crc(&from[..SUM]) {
            return Err(NotSaved::Damaged);
        }
        let mut made = Splicer {
            words: [0; WORDS],
            bytes: [0; BYTES],
        };
        for (place, eight) in made.words.iter_mut().zip(from[HEAD..].chunks_exact(8)) {
            *place = u64::from_le_bytes(eight.try_into().unwrap_or_default());
        }
        made.bytes.copy_from_slice(&from[SUM - BYTES..SUM]);
        Ok(made)
    }
}

/// CRC-32 (ISO-HDLC), bit by bit: no table, as a state is saved seldom.
fn crc(bytes: &[u8]) -> u32 {
    let mut sum = u32::MAX;
    for byte in bytes {
        sum ^= u32::from(*byte);
        for _ in 0..8 {
            sum = (sum >> 1) ^ (0xEDB8_8320 & (sum & 1).wrapping_neg());
        }
    }
    !sum
}
