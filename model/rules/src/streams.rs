//! Separate PIDs (02, CR 1): what stands behind ServiceID 0xFFFF in a Splice_Request, J.280's Tables
//! 7-6 and 8-6, read and written. Both begin with PcrPID.

use crate::requests::{Reading, Why};
pub use crate::requests::{Stream, Streams};

/// "At most 16 streams."
pub const MOST: usize = 16;
/// "Length counts the whole structure and is at least 21".
pub const LEAST: usize = 21;
/// "PIDs are at most 0x1FFF".
pub const LARGEST_PID: u64 = 0x1FFF;
/// A Length of 255 leaves this many bytes behind the first 21.
pub const MOST_KEPT: usize = 255 - LEAST;
/// PcrPID 2, PIDCount 4.
pub const HEAD: usize = 6;

/// A field of this many bytes.
pub fn number(bytes: &[u8], at: usize, length: usize) -> u64 {
    bytes[at..at + length].iter().fold(0, |sum, b| sum * 256 + u64::from(*b))
}

/// "PcrPID, PIDCount and that many splice_elementary_stream structures": the list in front, and the bytes taken.
pub fn streams(r: &Reading, bytes: &[u8]) -> Result<(Streams, usize), Why> {
    if bytes.len() < HEAD {
        return Err("123 Splice without a whole PIDCount");
    }
    let pcr_pid = number(bytes, 0, 2);
    if pcr_pid > LARGEST_PID {
        return Err("123 Splice PcrPID above 0x1FFF");
    }
    let count = number(bytes, 2, 4);
    if count > MOST as u64 {
        return Err("123 Splice PIDCount above 16");
    }
    let (mut list, mut at) = (Vec::new(), HEAD);
    for _ in 0..count {
        let (stream, length) = r.stream(&bytes[at..])?;
        list.push(stream);
        // J.280, Length: "including this field".
        at += length;
    }
    Ok((Streams { pcr_pid, list }, at))
}

/// The structure in front, and its Length.
pub fn stream(_: &Reading, bytes: &[u8]) -> Result<(Stream, usize), Why> {
    let Some(length) = bytes.first().map(|b| usize::from(*b)) else {
        return Err("123 Splice structure missing");
    };
    if length < LEAST {
        return Err("123 Splice structure of Length below 21");
    }
    if bytes.len() < length {
        return Err("123 Splice structure past the message's end");
    }
    let stream = of_bytes(&bytes[..length]);
    if stream.pid > LARGEST_PID {
        return Err("123 Splice PID above 0x1FFF");
    }
    // "0xFFFFFFFF and 0xFFFF mark an unknown rate or picture size and are legal nowhere else in a
    // structure": of the other two fields a PID is below it already.
    if stream.kind == 0xFFFF {
        return Err("123 Splice StreamType 0xFFFF");
    }
    Ok((stream, length))
}

/// Table 8-6's fields of a whole structure.
pub fn of_bytes(bytes: &[u8]) -> Stream {
    Stream {
        pid: number(bytes, 1, 2),
        kind: number(bytes, 3, 2),
        average: number(bytes, 5, 4),
        highest: number(bytes, 9, 4),
        lowest: number(bytes, 13, 4),
        width: number(bytes, 17, 2),
        height: number(bytes, 19, 2),
        kept: bytes[LEAST..].to_vec(),
    }
}

/// "and write them too for our bench": the bytes of a list, from PcrPID on; none for a list that could not be read back.
pub fn write(streams: &Streams) -> Option<Vec<u8>> {
    if streams.list.len() > MOST || streams.pcr_pid > LARGEST_PID {
        return None;
    }
    let mut bytes = (streams.pcr_pid as u16).to_be_bytes().to_vec();
    bytes.extend((streams.list.len() as u32).to_be_bytes());
    for stream in &streams.list {
        bytes.extend(write_one(stream)?);
    }
    Some(bytes)
}

fn write_one(stream: &Stream) -> Option<Vec<u8>> {
    if stream.pid > LARGEST_PID || stream.kind == 0xFFFF {
        return None;
    }
    let half = |value: u64| u16::try_from(value).ok().map(u16::to_be_bytes);
    let word = |value: u64| u32::try_from(value).ok().map(u32::to_be_bytes);
    let mut bytes = vec![u8::try_from(LEAST + stream.kept.len()).ok()?];
    bytes.extend([half(stream.pid)?, half(stream.kind)?].concat());
    bytes.extend([word(stream.average)?, word(stream.highest)?, word(stream.lowest)?].concat());
    bytes.extend([half(stream.width)?, half(stream.height)?].concat());
    bytes.extend(&stream.kept);
    Some(bytes)
}
