//! Bench recordings (02, CR 14): "in the card program's marks, of calls and of the records another
//! splicer wrote after each", one entry behind the other.

use crate::bytes::half;
use crate::state::LARGEST_SIZE;

/// What bytes begin with.
#[derive(Clone, Copy, Debug, PartialEq, Eq)]
pub enum First {
    /// An entry of this many bytes.
    Whole(usize),
    /// A mark whose entry needs more bytes than there are.
    Cut { needs: usize },
    /// None of the six marks.
    Unknown,
}

pub fn is_call(mark: u8) -> bool {
    matches!(mark, 0x4F | 0x43 | 0x4D | 0x54)
}

/// The entry at the front of bytes that are not empty. "A message header with MessageSize above 4,088 ends its record."
pub fn first(rest: &[u8]) -> First {
    let needs = match rest[0] {
        0x4F | 0x43 | 0x45 => 2,
        0x54 => 10,
        0x4D | 0x52 if rest.len() < 10 => 10,
        0x4D | 0x52 => match usize::from(half(rest, 4)) {
            size @ 0..=LARGEST_SIZE => 10 + size,
            _ => 10,
        },
        _ => return First::Unknown,
    };
    match rest.len() {
        there if there < needs => First::Cut { needs },
        _ => First::Whole(needs),
    }
}

/// A whole entry and its place.
#[derive(Clone, Copy, Debug, PartialEq, Eq)]
pub struct Entry<'r> {
    pub at: usize,
    pub bytes: &'r [u8],
}

/// How a recording ends.
#[derive(Clone, Copy, Debug, PartialEq, Eq)]
pub enum End {
    Whole,
    Cut { at: usize, needs: usize },
    Unknown { at: usize },
}

/// The whole entries from the beginning on, and what ends them.
pub fn entries(recording: &[u8]) -> (Vec<Entry<'_>>, End) {
    let (mut list, mut at) = (Vec::new(), 0);
    while at < recording.len() {
        match first(&recording[at..]) {
            First::Whole(length) => {
                list.push(Entry { at, bytes: &recording[at..at + length] });
                at += length;
            }
            First::Cut { needs } => return (list, End::Cut { at, needs }),
            First::Unknown => return (list, End::Unknown { at }),
        }
    }
    (list, End::Whole)
}
