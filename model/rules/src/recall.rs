//! The engine that only remembers (02, CR 12): "it keeps the good calls, up to 256, in the card program's marks
//! in a lent log of 65,536 bytes, and works out each answer from the whole list by the rules of document 01 as
//! amended, for the name "CH1"". Here the rules are run from nothing over the whole list at every call.

use crate::bytes::{all_bytes, Record};
use crate::card::{self, Call as Kept};
use crate::state::{Maps, Splicer, LARGEST_SIZE};

/// "a lent log of 65,536 bytes"
pub const LOG: usize = 65_536;
/// "it keeps the good calls, up to 256"
pub const MOST: usize = 256;
/// "under 4,098 of its bytes are free": the record of the largest message is as long.
pub const LEAST_FREE: usize = 4_098;
/// "house number 13 from this engine alone"
pub const FULL: u8 = 13;

/// What a call gave: its house number or 0, the bytes consumed and written, and the places that an acceptance shifted (02, CR 11).
#[derive(Clone, Copy, Debug, Default, PartialEq, Eq)]
pub struct Reply {
    pub refused: u8,
    pub consumed: usize,
    pub written: usize,
    pub moved: usize,
}

impl Reply {
    pub fn refusal(number: u8) -> Reply {
        Reply { refused: number, ..Reply::default() }
    }
}

/// A call, with what is lent to it beside the log and the output buffer. "Cues and the rolling counter aren't among its calls."
#[derive(Clone, Copy, Debug, PartialEq, Eq)]
pub enum Asked<'c> {
    Fresh,
    Open(u32),
    Close(u32),
    /// The connection, the bytes read so far, and the sections of the two feeds (02, CR 6).
    Message(u32, &'c [u8], Maps<'c>),
    Tick(u32, u32),
}

/// Clears the log, so that no call is kept; "for fresh only the length counts".
pub fn fresh(log: &mut [u8]) -> Reply {
    if log.len() != LOG {
        return Reply::refusal(FULL);
    }
    log.fill(0);
    Reply::default()
}

/// Any of the five calls.
pub fn call(log: &mut [u8], asked: &Asked, out: &mut [u8]) -> Reply {
    match *asked {
        Asked::Fresh => fresh(log),
        _ => answered(log, asked, out),
    }
}

/// The rules' answer after the calls in the log. "A good call is appended, a refused one is not and leaves the log as it was."
fn answered(log: &mut [u8], asked: &Asked, out: &mut [u8]) -> Reply {
    let list = list(log);
    // "before all others"
    if full(log, &list) {
        return Reply::refusal(FULL);
    }
    let mut splicer = after(&list.calls);
    match answer(&mut splicer, asked, out.len()) {
        Err(number) => Reply::refusal(number),
        Ok((written, consumed)) => {
            let bytes = all_bytes(&written);
            out[..bytes.len()].copy_from_slice(&bytes);
            append(log, list.used, &record(asked));
            Reply { refused: 0, consumed, written: bytes.len(), moved: splicer.moved }
        }
    }
}

/// The calls in a log and the bytes that they take, from the first one on.
pub struct List {
    pub calls: Vec<Kept>,
    pub used: usize,
}

/// "any 65,536 bytes are a list of calls", read as the card program reads its input "up to the first byte that
/// begins none (an oversize header ends the list too)".
pub fn list(log: &[u8]) -> List {
    let (mut calls, mut used) = (Vec::new(), 0);
    while let Ok((call, length)) = card::next_call(&log[used..]) {
        if card::is_too_large(&call) {
            break;
        }
        calls.push(call);
        used += length;
    }
    List { calls, used }
}

/// "exactly when the log isn't 65,536 bytes, 256 calls are kept or under 4,098 of its bytes are free"
pub fn full(log: &[u8], list: &List) -> bool {
    log.len() != LOG || list.calls.len() >= MOST || log.len() - list.used < LEAST_FREE
}

/// "in the state that those calls lead to from fresh". "a kept message is gone through with empty ones", and
/// with a buffer of 4,096: the card program lends both. What the rules refuse changes nothing.
pub fn after(calls: &[Kept]) -> Splicer {
    let (mut splicer, _) = Splicer::fresh(&card::channel_name());
    for call in calls {
        card::make(&mut splicer, call);
    }
    splicer
}

/// The records and the bytes consumed, or the house number, of the present call.
pub fn answer(splicer: &mut Splicer, asked: &Asked, room: usize) -> Result<(Vec<Record>, usize), u8> {
    // 01 knows only "above 3"
    let byte = |conn: u32| conn.min(255) as u8;
    match *asked {
        Asked::Fresh => Ok((Vec::new(), 0)),
        Asked::Open(conn) => splicer.open(byte(conn)).map(|()| (Vec::new(), 0)),
        Asked::Close(conn) => splicer.close(byte(conn), room).map(|out| (out, 0)),
        Asked::Message(conn, read, maps) => splicer.message_with(byte(conn), read, &maps, room),
        Asked::Tick(seconds, micros) => splicer.tick(seconds, micros, room).map(|out| (out, 0)),
    }
}

/// A call in the card program's marks: "`4F c`, `43 c`, `4D c` and the first message of what was read (its 8 +
/// MessageSize bytes, no more), `54 00` and the time".
pub fn record(asked: &Asked) -> Vec<u8> {
    match *asked {
        Asked::Fresh => Vec::new(),
        Asked::Open(conn) => vec![0x4F, conn as u8],
        Asked::Close(conn) => vec![0x43, conn as u8],
        Asked::Message(conn, read, _) => [&[0x4D, conn as u8], first_message(read)].concat(),
        Asked::Tick(seconds, micros) => card::input_bytes(&Kept::Tick(seconds, micros)),
    }
}

/// The first message of what was read, or all that there is of it.
fn first_message(read: &[u8]) -> &[u8] {
    let size = match read {
        [_, _, high, low, ..] => usize::from(u16::from_be_bytes([*high, *low])),
        _ => 0,
    };
    &read[..read.len().min(8 + size.min(LARGEST_SIZE))]
}

/// Writes a record behind the calls in the log. "Behind the last stands a zero byte if there is room".
pub fn append(log: &mut [u8], used: usize, record: &[u8]) {
    let to = used + record.len();
    log[used..to].copy_from_slice(record);
    if let Some(behind) = log.get_mut(to) {
        *behind = 0;
    }
}
