//! Reading the requests: 01's "Bytes" and its "Not readable" sentence, and what 02's CR 6 and CR 8 add.

use crate::bytes::{half, word};
use crate::requests::{Read, Reading, Request, SpliceFields, Tail, Why};
use crate::times::NONE;

/// The message of this MessageID, one of 01's list of four or of 02's two.
pub fn read(r: &Reading, id: u16, data: &[u8]) -> Read {
    match id {
        0x0001 => r.read_init(data),
        0x0003 => r.read_extended(data),
        0x0005 => r.read_alive(data),
        0x0007 => r.read_splice(data),
        0x000A => r.read_config(data),
        _ => r.read_abort(data),
    }
}

/// "Init data below 66 bytes or either name without a zero"; 02, CR 6: "a Hardware_Config over 256 bytes or
/// past the message's end"; "the rest unread".
pub fn read_init(r: &Reading, data: &[u8]) -> Read {
    if data.len() < 66 {
        return Err("123 Init below 66 bytes");
    }
    if !data[2..34].contains(&0) {
        return Err("123 Init ChannelName without a zero");
    }
    if !data[34..66].contains(&0) {
        return Err("123 Init SplicerName without a zero");
    }
    let mut name = [0; 32];
    name.copy_from_slice(&data[2..34]);
    Ok(Request::Init { revision: half(data, 0), name, hardware: r.hardware(data)? })
}

/// "Alive data other than 8 bytes". "An Alive time is not checked."
pub fn read_alive(_: &Reading, data: &[u8]) -> Read {
    match data.len() {
        8 => Ok(Request::Alive),
        0..8 => Err("123 Alive below 8 bytes"),
        _ => Err("123 Alive above 8 bytes"),
    }
}

/// "Abort data other than 4".
pub fn read_abort(_: &Reading, data: &[u8]) -> Read {
    match data.len() {
        4 => Ok(Request::Abort { id: word(data, 0) }),
        0..4 => Err("123 Abort below 4 bytes"),
        _ => Err("123 Abort above 4 bytes"),
    }
}

/// "Splice data below 18 bytes, or [..] any of: below 33, descriptors ill-formed, Duration 0, AccessType above 9 [..]".
/// 02, CR 1: a request with ServiceID 0xFFFF goes "through the other reading rules" too.
pub fn read_splice(r: &Reading, data: &[u8]) -> Read {
    let tail = r.tail(data)?;
    let bytes = tail.bytes;
    let fields = r.fields(data, tail);
    r.check(&fields, bytes[14])?;
    let mux = r.mux_of(&bytes[15..])?;
    Ok(Request::Splice(SpliceFields { mux, ..fields }))
}

/// "below 18 bytes", "below 33"; 02, CR 1: PcrPID, PIDCount and the structures stand behind ServiceID 0xFFFF.
pub fn tail<'d>(r: &Reading, data: &'d [u8]) -> Result<Tail<'d>, Why> {
    if data.len() < 18 {
        return Err("123 Splice below 18 bytes");
    }
    let rest = &data[18..];
    if half(data, 16) != 0xFFFF {
        if rest.len() < 15 {
            return Err("123 Splice below 33 bytes");
        }
        return Ok(Tail { bytes: rest, streams: None });
    }
    let (list, taken) = r.streams(rest)?;
    let bytes = rest.get(taken..).unwrap_or_default();
    if bytes.len() < 15 {
        return Err("123 Splice below 15 bytes behind the structures");
    }
    Ok(Tail { bytes, streams: Some(list) })
}

/// "SessionID 4, PriorSession 4, time 8, ServiceID 2, Duration 4, SpliceEventID 4, PostBlack 4, AccessType 1,
/// OverridePlaying 1, ReturnToPriorChannel 1".
pub fn fields(_: &Reading, data: &[u8], tail: Tail) -> SpliceFields {
    SpliceFields {
        id: word(data, 0),
        prior: word(data, 4),
        seconds: word(data, 8),
        micros: word(data, 12),
        duration: word(tail.bytes, 0),
        event: word(tail.bytes, 4),
        access: tail.bytes[12],
        overrides: tail.bytes[13],
        mux: 0,
        streams: tail.streams,
    }
}

/// "Duration 0, AccessType above 9, either of OverridePlaying and ReturnToPriorChannel above
/// 1, or PriorSession 0xFFFFFFFF with MicroSeconds above 999,999".
pub fn check(_: &Reading, fields: &SpliceFields, returns: u8) -> Result<(), Why> {
    if fields.duration == 0 {
        return Err("123 Splice Duration 0");
    }
    if fields.access > 9 {
        return Err("123 Splice AccessType above 9");
    }
    if fields.overrides > 1 {
        return Err("123 Splice OverridePlaying above 1");
    }
    if returns > 1 {
        return Err("123 Splice ReturnToPriorChannel above 1");
    }
    if fields.prior == NONE && fields.micros > 999_999 {
        return Err("123 Splice timed MicroSeconds above 999,999");
    }
    Ok(())
}

/// 02, CR 6: "Keep Hardware_Config per connection, up to 256 bytes with its Length."
pub const MOST_HARDWARE: usize = 256;

/// The Hardware_Config behind the two names of an Init_Request's data: Length 2, and as many bytes.
pub fn hardware(_: &Reading, data: &[u8]) -> Result<Vec<u8>, Why> {
    if data.len() < 68 {
        return Err("123 Init of 66 or 67 bytes");
    }
    let whole = 2 + usize::from(half(data, 66));
    if whole > MOST_HARDWARE {
        return Err("123 Init Hardware_Config over 256 bytes");
    }
    match data.get(66..66 + whole) {
        Some(kept) => Ok(kept.to_vec()),
        None => Err("123 Init Hardware_Config past the end"),
    }
}

/// 02, CR 6: "General_Response 123 for data present".
pub fn read_config(_: &Reading, data: &[u8]) -> Read {
    match data.is_empty() {
        true => Ok(Request::Config),
        false => Err("123 GetConfig with data"),
    }
}

/// 02, CR 8: "General_Response 123 for another type or a size not 8".
pub fn read_extended(_: &Reading, data: &[u8]) -> Read {
    match data.len() {
        8 if word(data, 4) == 0xFFFF_FFFF => Ok(Request::Extended { id: word(data, 0) }),
        8 => Err("123 ExtendedData of another type"),
        0..8 => Err("123 ExtendedData below 8 bytes"),
        _ => Err("123 ExtendedData above 8 bytes"),
    }
}
