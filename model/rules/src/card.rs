//! 01, "The card program": records of standard input become calls, and what the calls write becomes standard output.

use crate::bytes::{self, word};
use crate::calls;
use crate::state::{Rules, Said, Splicer, LARGEST_SIZE, ROOM};

/// One call as the card program reads it.
#[derive(Clone, Debug, PartialEq, Eq)]
pub enum Call {
    Open(u8),
    Close(u8),
    /// The connection and the message's bytes, header included.
    Message(u8, Vec<u8>),
    Tick(u32, u32),
}

/// Why the card program stopped.
#[derive(Clone, Copy, Debug, PartialEq, Eq)]
pub enum Stop {
    End,
    CutRecord,
    OtherMark,
    TooLarge,
}

/// "ChannelName is "CH1"."
pub fn channel_name() -> [u8; 32] {
    let mut name = [0; 32];
    name[..3].copy_from_slice(b"CH1");
    name
}

/// Reads the input to its end or where it stops, and makes each call; `each` gets the splicer after the call, the call,
/// where its record ends in the input and what was written.
pub fn run(input: &[u8], rules: &'static Rules, mut each: impl FnMut(&Splicer, Call, usize, Vec<u8>)) -> (Splicer, Stop) {
    let (mut splicer, _) = calls::fresh(&channel_name(), rules);
    let mut at = 0;
    loop {
        let (call, length) = match next_call(&input[at..]) {
            Err(stop) => return (splicer, stop),
            Ok(next) => next,
        };
        at += length;
        let too_large = is_too_large(&call);
        let output = make(&mut splicer, &call);
        each(&splicer, call, at, output);
        // "it makes the call, writes the refusal and stops"
        if too_large {
            return (splicer, Stop::TooLarge);
        }
    }
}

/// The first record of the input and its length. "It stops at the end, a cut record or another mark".
pub fn next_call(input: &[u8]) -> Result<(Call, usize), Stop> {
    let Some(mark) = input.first() else {
        return Err(Stop::End);
    };
    match (mark, input.get(1)) {
        (0x4F | 0x43 | 0x4D | 0x54, None) => Err(Stop::CutRecord),
        (0x4F, Some(conn)) => Ok((Call::Open(*conn), 2)),
        (0x43, Some(conn)) => Ok((Call::Close(*conn), 2)),
        (0x4D, Some(conn)) => next_message(*conn, &input[2..]),
        // "0x54 0x00 and Seconds 4, MicroSeconds 4 (tick; the 0x00 isn't read)"
        (0x54, Some(_)) if input.len() < 10 => Err(Stop::CutRecord),
        (0x54, Some(_)) => Ok((Call::Tick(word(input, 2), word(input, 6)), 10)),
        _ => Err(Stop::OtherMark),
    }
}

/// "0x4D connection and one message". "at a message header with MessageSize above 4,088 it
/// makes the call": the body, there or not, is not waited for.
fn next_message(conn: u8, rest: &[u8]) -> Result<(Call, usize), Stop> {
    if rest.len() < 8 {
        return Err(Stop::CutRecord);
    }
    let size = usize::from(bytes::half(rest, 2));
    let length = if size > LARGEST_SIZE { 8 } else { 8 + size };
    if rest.len() < length {
        return Err(Stop::CutRecord);
    }
    Ok((Call::Message(conn, rest[..length].to_vec()), 2 + length))
}

/// "a message header with MessageSize above 4,088"
pub fn is_too_large(call: &Call) -> bool {
    matches!(call, Call::Message(_, bytes) if usize::from(bytes::half(bytes, 2)) > LARGEST_SIZE)
}

/// Makes the call, and what the card program writes of it.
pub fn make(splicer: &mut Splicer, call: &Call) -> Vec<u8> {
    shown(made(splicer, call, ROOM))
}

/// The call's records and the bytes consumed, or its house number.
pub fn made(splicer: &mut Splicer, call: &Call, room: usize) -> Result<Said, u8> {
    match call {
        Call::Open(conn) => splicer.open(*conn).map(|()| Said::default()),
        Call::Close(conn) => splicer.close(*conn, room).map(|out| (out, 0)),
        Call::Message(conn, bytes) => splicer.message(*conn, bytes, room),
        Call::Tick(seconds, micros) => splicer.tick(*seconds, *micros, room).map(|out| (out, 0)),
    }
}

/// "It writes each call's output; a refusal is 0x45 and the number."
pub fn shown(said: Result<Said, u8>) -> Vec<u8> {
    said.map_or_else(|number| vec![0x45, number], |(out, _)| bytes::all_bytes(&out))
}

/// The input record of a call.
pub fn input_bytes(call: &Call) -> Vec<u8> {
    match call {
        Call::Open(conn) => vec![0x4F, *conn],
        Call::Close(conn) => vec![0x43, *conn],
        Call::Message(conn, bytes) => [&[0x4D, *conn], &bytes[..]].concat(),
        Call::Tick(seconds, micros) => [vec![0x54, 0x00], bytes::words(&[*seconds, *micros])].concat(),
    }
}
