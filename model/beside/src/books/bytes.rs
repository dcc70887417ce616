//! The bytes of messages and records, by 01's and 02's sentences.

use splicer::{message_id as id, result, Record};

/// An end as the calls and records alone show it.
#[derive(Clone, Copy, PartialEq, Eq)]
pub struct Ended {
    pub conn: u8,
    pub id: u32,
    pub event: u32,
    pub result: u16,
    pub played: u32,
}

pub const NONE: u32 = 0xFFFF_FFFF;
pub const COMPLETE: u16 = id::SPLICE_COMPLETE_RESPONSE;
pub const CUE: u16 = 0x000C;
pub const CONFIG_REQUEST: u16 = 0x000A;
pub const CONFIG_RESPONSE: u16 = 0x000B;
pub const EXTENDED_REQUEST: u16 = 0x0003;
pub const EXTENDED_RESPONSE: u16 = 0x0004;
/// 01: "in ninths of a microsecond, a second is 9,000,000, a microsecond 9, a tick 100".
pub const SECOND: u64 = 9_000_000;

pub type Kept = Result<(), String>;

/// A Splice_Request's data and its tail.
pub type Ask<'d> = (&'d [u8], &'d [u8]);

pub fn half(bytes: &[u8], at: usize) -> u16 {
    u16::from_be_bytes([bytes[at], bytes[at + 1]])
}

pub fn word(bytes: &[u8], at: usize) -> u32 {
    u32::from_be_bytes([bytes[at], bytes[at + 1], bytes[at + 2], bytes[at + 3]])
}

pub fn ninths(seconds: u32, micros: u32) -> u64 {
    u64::from(seconds) * SECOND + u64::from(micros) * 9
}

/// The fewest bytes of data that are readable in any message of this kind.
pub fn least(kind: u16) -> usize {
    match kind {
        id::INIT_REQUEST => 68,
        id::ALIVE_REQUEST => 8,
        id::SPLICE_REQUEST => 18,
        id::ABORT_REQUEST => 4,
        EXTENDED_REQUEST => 8,
        _ => 0,
    }
}

/// Duration and what follows it: at 18, or with ServiceID 0xFFFF behind the structures (02, CR 1). None
/// of what is too short, or of separate PIDs that are no good list.
pub fn tail(data: &[u8]) -> Option<&[u8]> {
    let rest = data.get(18..)?;
    let tail = match half(data, 16) {
        0xFFFF => behind(rest)?,
        _ => rest,
    };
    (tail.len() >= 15).then_some(tail)
}

/// "Length counts the whole structure and is at least 21; PIDs are at most 0x1FFF"; 0xFFFF is "legal
/// nowhere else" than in a picture size; "At most 16 streams".
pub fn behind(bytes: &[u8]) -> Option<&[u8]> {
    let (head, mut rest) = bytes.split_at_checked(6)?;
    let count = word(head, 2);
    if half(head, 0) > 0x1FFF || count > 16 {
        return None;
    }
    for _ in 0..count {
        let length = usize::from(*rest.first()?);
        let (structure, next) = rest.split_at_checked(length)?;
        if length < 21 || half(structure, 1) > 0x1FFF || half(structure, 3) == 0xFFFF {
            return None;
        }
        rest = next;
    }
    Some(rest)
}

/// The value of descriptors: "For tag 0x02 under "SAPI" the length must be 5 and the value 1 to 10; the
/// last one wins, and without one the value is 5". None if one of them is bad or ill-formed.
pub fn mux_of(descriptors: &[u8]) -> Option<u8> {
    let (mut value, mut rest) = (5, descriptors);
    while let [tag, length, more @ ..] = rest {
        let (body, next) = more.split_at_checked(usize::from(*length))?;
        value = match (tag, body) {
            (2, [b'S', b'A', b'P', b'I', asked @ 1..=10]) => *asked,
            (2, [b'S', b'A', b'P', b'I', ..]) => return None,
            _ if (4..=254).contains(length) => value,
            _ => return None,
        };
        rest = next;
    }
    rest.is_empty().then_some(value)
}

/// "either name without a zero"
pub fn named(data: &[u8]) -> bool {
    data.len() >= 66 && data[2..34].contains(&0) && data[34..66].contains(&0)
}

/// The Hardware_Config of an Init_Request with its Length: none "over 256 bytes or past the message's end" (02, CR 6).
pub fn hardware(data: &[u8]) -> Option<&[u8]> {
    let (length, _) = data.get(66..)?.split_first_chunk::<2>()?;
    let all = 2 + usize::from(u16::from_be_bytes(*length));
    data[66..].get(..all).filter(|_| all <= 256)
}

/// "tag 0x01, length 14, identifier 0x43415244, SpliceEventID 4, result 2, PlayedDuration 4"
pub fn descriptor(ended: &Ended) -> Vec<u8> {
    let mut bytes = vec![0x01, 14, 0x43, 0x41, 0x52, 0x44];
    bytes.extend(ended.event.to_be_bytes());
    bytes.extend(ended.result.to_be_bytes());
    bytes.extend(ended.played.to_be_bytes());
    bytes
}

pub fn is_kind(record: &Record, kind: u16, code: u16) -> bool {
    record.message_id == kind && record.result == code
}

pub fn is(record: &Record, conn: u8, kind: u16, code: u16) -> bool {
    record.connection == conn && is_kind(record, kind, code)
}

/// The size of its kind, and "in answers Result_Extension is 0xFFFF".
pub fn well_formed(record: &Record) -> Kept {
    let size = match record.message_id {
        id::GENERAL_RESPONSE => 0,
        id::INIT_RESPONSE => 34,
        id::ALIVE_RESPONSE => 16,
        id::SPLICE_RESPONSE | id::ABORT_RESPONSE => 4,
        COMPLETE => 13,
        // the time and a section
        CUE => record.data.len().clamp(28, 520),
        EXTENDED_RESPONSE if record.result == result::INVALID_SESSION => 4,
        EXTENDED_RESPONSE => 20,
        // its parts are looked at with the request
        CONFIG_RESPONSE => record.data.len(),
        _ => return must(false, "a MessageID that is not written"),
    };
    must(record.data.len() == size, "a record of another size")?;
    must(half(record.message, 6) == 0xFFFF, "another Result_Extension")
}

pub fn must(kept: bool, text: &str) -> Kept {
    if kept {
        return Ok(());
    }
    Err(format!("by the records alone: {text}"))
}

/// 123 exactly where size, type, names or hardware ask for it, of those that these alone decide.
pub fn unreadable(kind: u16, data: &[u8], said: bool) -> Kept {
    // 02, CR 8: "123 for another type or a size not 8"
    if kind == EXTENDED_REQUEST {
        let asked = data.len() == 8 && word(data, 4) == NONE;
        must(asked != said, "123 not by size or type")?;
    }
    // 02, CR 6: "123 for data present"
    if kind == CONFIG_REQUEST {
        let bad = !data.is_empty();
        must(bad == said, "123 not by its data")?;
    }
    if kind == id::INIT_REQUEST {
        let bad = !named(data) || hardware(data).is_none();
        must(bad == said, "123 not by names or hardware")?;
    }
    Ok(())
}
