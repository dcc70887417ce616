//! The requests that a server sends, as bytes (J.280, clause 7; document 01, "Bytes").

use splicer::{message_id, name};

/// A Splice_Request of one service.
#[derive(Clone, Debug, PartialEq, Eq)]
pub struct Splice {
    pub session: u32,
    /// 0xFFFFFFFF: timed.
    pub prior: u32,
    pub seconds: u32,
    pub micros: u32,
    /// In ticks of 90 kHz.
    pub duration: u32,
    pub event: u32,
    pub access: u8,
    pub over: bool,
    pub mux: Option<u8>,
}

/// A message: its Result fields are 0xFFFF, as in every request.
pub fn message(id: u16, data: &[u8]) -> Vec<u8> {
    with_result(id, 0xFFFF, data)
}

fn with_result(id: u16, result: u16, data: &[u8]) -> Vec<u8> {
    let mut out = Vec::with_capacity(8 + data.len());
    for half in [id, data.len() as u16, result, 0xFFFF] {
        out.extend_from_slice(&half.to_be_bytes());
    }
    out.extend_from_slice(data);
    out
}

/// Hardware_Config of a splicer's first multiplex: its Length, 8, and as many bytes.
pub const HARDWARE: [u8; 10] = [0, 8, 0, 1, 0, 1, 0, 1, 0, 0];

pub fn init(channel: &[u8], splicer: &[u8]) -> Vec<u8> {
    let data = [&2u16.to_be_bytes()[..], &name(channel), &name(splicer), &HARDWARE].concat();
    message(message_id::INIT_REQUEST, &data)
}

pub fn alive(seconds: u32, micros: u32) -> Vec<u8> {
    message(message_id::ALIVE_REQUEST, &[seconds.to_be_bytes(), micros.to_be_bytes()].concat())
}

pub fn splice(asked: &Splice) -> Vec<u8> {
    let mut data = [asked.session, asked.prior, asked.seconds, asked.micros].map(u32::to_be_bytes).concat();
    data.extend_from_slice(&1u16.to_be_bytes());
    data.extend([asked.duration, asked.event, 0].map(u32::to_be_bytes).concat());
    data.extend([asked.access, u8::from(asked.over), 1]);
    if let Some(value) = asked.mux {
        data.extend([0x02, 5]);
        data.extend(b"SAPI");
        data.push(value);
    }
    message(message_id::SPLICE_REQUEST, &data)
}

pub fn abort(session: u32) -> Vec<u8> {
    message(message_id::ABORT_REQUEST, &session.to_be_bytes())
}

pub fn config() -> Vec<u8> {
    message(message_id::GET_CONFIG_REQUEST, &[])
}

pub fn extended(session: u32) -> Vec<u8> {
    message(message_id::EXTENDED_DATA_REQUEST, &[session, u32::MAX].map(u32::to_be_bytes).concat())
}

/// The answer to a Cue_Request.
pub fn cue_response(result: u16) -> Vec<u8> {
    with_result(message_id::CUE_RESPONSE, result, &[])
}

/// The length of the first message in bytes read so far, if its header is there.
pub fn length(read: &[u8]) -> Option<usize> {
    Some(8 + usize::from(u16::from_be_bytes([*read.get(2)?, *read.get(3)?])))
}

/// The ChannelName that a whole Init_Request names, up to its first zero byte. None of another
/// message, or if it has no whole name.
pub fn named(message: &[u8]) -> Option<&[u8]> {
    let data = message.strip_prefix(&message_id::INIT_REQUEST.to_be_bytes())?.get(6..)?;
    let name = data.get(2..34)?;
    Some(&name[..name.iter().position(|byte| *byte == 0)?])
}

#[cfg(test)]
mod tests {
    use super::*;

    #[test]
    fn an_init_names_a_channel() {
        let sent = init(b"CH1", b"");
        assert_eq!(length(&sent), Some(sent.len()));
        assert_eq!(named(&sent), Some(&b"CH1"[..]));
        assert_eq!(named(&alive(1, 2)), None);
        assert_eq!(named(&message(1, &[0; 33])), None);
        assert_eq!(named(&message(1, &[1; 66])), None);
        assert_eq!(named(&message(1, &[0; 34])), Some(&b""[..]));
    }

    #[test]
    fn a_splice_request_byte_by_byte() {
        let asked = Splice {
            session: 1,
            prior: u32::MAX,
            seconds: 0x0102_0304,
            micros: 5,
            duration: 0x0029_32E0,
            event: 4711,
            access: 5,
            over: true,
            mux: Some(7),
        };
        let bytes = splice(&asked);
        // header, SessionID, PriorSession, time, ServiceID, Duration, SpliceEventID, PostBlack, three bytes, muxpriority
        let wanted = [
            &[0, 7, 0, 40, 255, 255, 255, 255][..],
            &[0, 0, 0, 1, 255, 255, 255, 255, 1, 2, 3, 4, 0, 0, 0, 5, 0, 1, 0, 0x29, 0x32, 0xE0, 0, 0, 0x12, 0x67],
            &[0, 0, 0, 0, 5, 1, 1, 2, 5, b'S', b'A', b'P', b'I', 7],
        ];
        assert_eq!(bytes, wanted.concat());
    }
}
