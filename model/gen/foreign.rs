//! The calls of a driver between those of a stream: what the card program cannot make, and what a driver may lend.

use crate::gen::draw::Rng;
use crate::people::driver_call::{Act, Call, Sections};
use crate::rules::ROOM;

/// Bytes of a message's header, and of a ChannelName.
const HEADER: usize = 8;
const NAME: usize = 32;
/// The longest output buffer lent.
pub const LONGEST: usize = ROOM + 100;

/// The call as a driver may make it: a good buffer, at times longer; sections; at times bytes behind the message.
pub fn lent(rng: &mut Rng, call: Call) -> Act {
    let call = run_on(rng, call);
    let room = rng.pick(&[ROOM, ROOM, ROOM, ROOM + 1, LONGEST]);
    let sections = good_sections(rng, &call);
    Act { call, room, sections }
}

/// Calls that a driver may make and the card program does not, before this one.
pub fn foreign(rng: &mut Rng, call: &Call, acts: &mut Vec<Act>) {
    if rng.chance(12) {
        acts.push(Act::plain(call.clone(), rng.pick(&[0, 1, ROOM - 1, ROOM - 1, rng.below(ROOM as u64) as usize])));
    }
    if rng.chance(6) {
        let room = rng.pick(&[ROOM, ROOM, ROOM, ROOM - 1]);
        acts.push(long_sections(rng, call.clone(), room));
    }
    if rng.chance(4) {
        let call = elsewhere(rng, call);
        acts.push(Act::plain(call.clone(), rng.pick(&[ROOM, ROOM, ROOM - 1])));
        acts.push(long_sections(rng, call, ROOM));
    }
    if let Call::Message(conn, bytes) = call {
        foreign_messages(rng, *conn, bytes, acts);
    }
}

/// A section of this many bytes, drawn.
fn section(rng: &mut Rng, length: usize) -> Vec<u8> {
    let first = rng.next() as u8;
    (0..length).map(|at| first.wrapping_add(at as u8)).collect()
}

/// Sections up to 1,024 bytes (02, CR 6), most often for a GetConfig_Request.
fn good_sections(rng: &mut Rng, call: &Call) -> Sections {
    let asks = matches!(call, Call::Message(_, bytes) if bytes[..2] == [0, 0x0A]);
    if !rng.chance(if asks { 85 } else { 8 }) {
        return Sections::default();
    }
    let lengths = [0, 1, 183, 1_023, 1_024, 1_024];
    let [primary, insertion] = [0; 2].map(|_| rng.pick(&lengths));
    Sections { primary: section(rng, primary), insertion: section(rng, insertion) }
}

/// The same call with a section above 1,024 bytes on one side or both; at times the message is cut.
fn long_sections(rng: &mut Rng, mut call: Call, room: usize) -> Act {
    if let Call::Message(_, bytes) = &mut call {
        if rng.chance(30) {
            bytes.truncate(rng.below(bytes.len() as u64) as usize);
        }
    }
    let long = rng.pick(&[1_025, 1_025, 1_026, 2_048, 70_000]);
    let other = rng.pick(&[0, 1, 1_023, 1_024, 1_025]);
    let (primary, insertion) = rng.pick(&[(long, other), (other, long)]);
    let sections = Sections { primary: section(rng, primary), insertion: section(rng, insertion) };
    Act { call, room, sections }
}

/// The same call for a connection that a byte cannot tell from it, or above 3 otherwise.
fn elsewhere(rng: &mut Rng, call: &Call) -> Call {
    let mut other = call.clone();
    if let Call::Open(conn) | Call::Close(conn) | Call::Message(conn, _) = &mut other {
        *conn = rng.pick(&[*conn + 256, *conn + 0x1_0000, *conn | 1 << 31, u32::MAX, 4]);
    }
    other
}

/// Cut, oversized and shortened messages, and bytes without sense.
fn foreign_messages(rng: &mut Rng, conn: u32, bytes: &[u8], acts: &mut Vec<Act>) {
    let mut push = |bytes: Vec<u8>| {
        let call = Call::Message(conn, bytes);
        acts.push(Act::plain(call, ROOM));
    };
    if rng.chance(15) {
        let length = rng.pick(&[0, 7, bytes.len() - 1, rng.below(bytes.len() as u64) as usize]);
        push(bytes[..length.min(bytes.len() - 1)].to_vec());
    }
    if rng.chance(4) {
        let size: u16 = rng.pick(&[4_089, 4_096, 0xFFFF]);
        let mut large = bytes.to_vec();
        large[2..4].copy_from_slice(&size.to_be_bytes());
        large.resize(rng.pick(&[7, 8, 9, 4_097, 5_000]), 0);
        push(large);
    }
    if rng.chance(3) {
        let length = rng.below(60);
        push((0..length).map(|_| rng.next() as u8).collect());
    }
    if rng.chance(3) && bytes.len() > HEADER {
        push(shorter(rng, bytes));
    }
    if is_init(bytes) && rng.chance(60) {
        push(renamed(rng, bytes));
    }
}

/// Whether it is an Init_Request with a whole ChannelName.
pub fn is_init(bytes: &[u8]) -> bool {
    bytes.len() >= HEADER + 2 + NAME && bytes[..2] == [0, 1]
}

/// Its ChannelName with another byte somewhere, before or behind its end.
fn renamed(rng: &mut Rng, bytes: &[u8]) -> Vec<u8> {
    let mut bytes = bytes.to_vec();
    let place = HEADER + 2 + rng.below(NAME as u64 - 1) as usize;
    bytes[place] = rng.pick(&[bytes[place] ^ 1, bytes[place] ^ 0x80, b'1', 0]);
    bytes
}

/// The same bytes under a smaller MessageSize: what stood at the end of the data is not the
/// message's own any more, and must not be read.
fn shorter(rng: &mut Rng, bytes: &[u8]) -> Vec<u8> {
    let size = bytes.len() - HEADER;
    let size = (size - rng.pick(&[1, 1, 1, rng.between(1, size as u64) as usize])) as u16;
    let mut bytes = bytes.to_vec();
    bytes[2..4].copy_from_slice(&size.to_be_bytes());
    bytes
}

/// At times more was read than the message: an Alive_Request, whole or cut. Only the first message is handled.
fn run_on(rng: &mut Rng, mut call: Call) -> Call {
    if let Call::Message(_, bytes) = &mut call {
        if rng.chance(15) {
            let behind = [0, 5, 0, 8, 0, 0, 0, 0, 0, 0, 0, 0, 0, 0, 0, 0];
            bytes.extend(&behind[..rng.between(1, 16) as usize]);
        }
    }
    call
}
