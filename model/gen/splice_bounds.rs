//! Splice_Requests on both sides of each boundary at which 01 and 02 make them unreadable.

use crate::gen::damage::maybe_uninitialised;
use crate::gen::data;
use crate::gen::draw::{Ask, Gen};
use crate::rules::{State, NONE};
use crate::streams;

/// A Splice_Request that would be accepted, but for one change on either side of a boundary.
pub fn splice(gen: &mut Gen) {
    let conn = maybe_uninitialised(gen);
    let at = gen.ahead(gen.rng.between(0, 60));
    let ask = gen.timed(conn, at);
    let mut data = gen.rng.plain_data(&ask);
    data.truncate(33);
    let long = gen.rng.chance(50);
    match gen.rng.below(13) {
        0 => data.truncate(gen.rng.pick(&[0, 16, 17, 17, 18])),
        1 => data.truncate(gen.rng.pick(&[18, 31, 32, 32, 33])),
        2 => data[18..22].fill(0),
        3 => data[30] = gen.rng.pick(&[9, 10, 10, 255]),
        4 => data[31] = gen.rng.pick(&[1, 2, 2, 255]),
        5 => data[32] = gen.rng.pick(&[1, 2, 2, 255]),
        6 | 7 => micros(gen, &mut data),
        8 => linked_micros(gen, conn, &mut data),
        9 => {
            // Two things wrong at once.
            data[30] = 10;
            data[31] = 2;
        }
        _ => data.extend(descriptors(gen, long)),
    }
    gen.send(conn, 0x0007, data);
}

fn micros(gen: &mut Gen, data: &mut [u8]) {
    let value: u32 = gen.rng.pick(&[999_999, 1_000_000, 1_000_000, NONE]);
    data[12..16].copy_from_slice(&value.to_be_bytes());
}

/// MicroSeconds above 999,999 in a linked request: readable.
fn linked_micros(gen: &mut Gen, conn: u8, data: &mut [u8]) {
    micros(gen, data);
    let all = [State::Waiting, State::OnAir];
    let prior = gen.some(Some(conn), &all).map_or(1, |s| s.id);
    data[4..8].copy_from_slice(&prior.to_be_bytes());
}

/// A Splice_Request with separate PIDs, timed or linked, that would be accepted, but for one change on either side of a boundary.
pub fn separate(gen: &mut Gen) {
    let conn = maybe_uninitialised(gen);
    let mut ask = gen.timed(conn, gen.ahead(gen.rng.between(0, 60)));
    if let Some(prior) = gen.some(Some(conn), &[State::Waiting, State::OnAir]) {
        ask.prior = gen.rng.pick(&[NONE, prior.id]);
    }
    let data = match gen.rng.below(9) {
        0 => many(gen, &ask),
        1 => counted(gen, &ask),
        2 | 3 => lengths(gen, &ask),
        4 => limits(gen, &ask),
        5 => cut(gen, &ask),
        6 | 7 => tails(gen, &ask),
        _ => longer(gen, &ask),
    };
    gen.send(conn, 0x0007, data);
}

/// The request without descriptors, 33 bytes, and the bytes of some structures.
fn parts(gen: &mut Gen, ask: &Ask) -> (Vec<u8>, Vec<u8>, usize) {
    let mut data = gen.rng.plain_data(ask);
    data.truncate(33);
    let count = gen.rng.pick(&[0, 1, 1, 2, 2, 3, 15, 16]);
    let list = gen.rng.streams(count);
    let bytes = streams::write(&list).unwrap_or_default();
    (data, bytes, count)
}

/// 15, 16 or 17 structures, as many as PIDCount says.
fn many(gen: &mut Gen, ask: &Ask) -> Vec<u8> {
    let mut data = gen.rng.plain_data(ask);
    data.truncate(33);
    let count = gen.rng.pick(&[15, 16, 17, 17]);
    let list = gen.rng.streams(count.min(16));
    let mut bytes = streams::write(&list).unwrap_or_default();
    if count == 17 {
        bytes[5] = 17;
        bytes.extend([21, 0x1F, 0xFF, 0, 2]);
        bytes.extend([0xFF; 16]);
    }
    data::between(data, &bytes)
}

/// A PIDCount that is not the structures'.
fn counted(gen: &mut Gen, ask: &Ask) -> Vec<u8> {
    let (data, mut bytes, count) = parts(gen, ask);
    let count = count as u32;
    // Large numbers whose last bytes are the right count, too.
    let others =
        [count + 1, count + 1, count + 1, count.saturating_sub(1), count | 0x100, count | 0x1_0000, count | 1 << 31, 17, NONE];
    let other = gen.rng.pick(&others);
    bytes[2..6].copy_from_slice(&other.to_be_bytes());
    let mut data = data::between(data, &bytes);
    let one_more = other == count + 1;
    if gen.rng.chance(if one_more { 70 } else { 20 }) {
        // Nothing behind the structures: one that is missing begins at the message's end.
        data.truncate(18 + bytes.len());
    }
    data
}

/// The Length of a structure: another number, or another number and as many bytes.
fn lengths(gen: &mut Gen, ask: &Ask) -> Vec<u8> {
    let mut data = gen.rng.plain_data(ask);
    data.truncate(33);
    let count = gen.rng.pick(&[1, 1, 2, 3]);
    let mut list = gen.rng.streams(count);
    let place = gen.rng.below(count as u64) as usize;
    let plain = gen.rng.chance(70);
    if plain {
        list.list[place].kept.clear();
    }
    let before = streams::Streams { pcr_pid: 0, list: list.list[..place].to_vec() };
    let at = streams::write(&before).map_or(6, |bytes| bytes.len());
    let mut bytes = streams::write(&list).unwrap_or_default();
    // It may swallow the tail, or all but 15 bytes of what follows.
    let rest = (bytes.len() - at + 15).min(255) as u8;
    let swallowed = gen.rng.pick(&[rest, rest.saturating_sub(15), rest.saturating_add(1)]);
    let length = gen.rng.pick(&[0, 1, 20, 20, 20, 21, 22, 255, swallowed]);
    bytes[at] = length;
    if plain && gen.rng.chance(60) && length > 0 {
        // As many bytes as it says.
        let own: Vec<u8> = bytes.drain(at..at + 21).collect();
        let mut own = own.into_iter().chain(std::iter::repeat(7));
        let rest = bytes.split_off(at);
        bytes.extend(own.by_ref().take(length.into()));
        bytes.extend(rest);
    }
    let mut data = data::between(data, &bytes);
    if gen.rng.chance(20) {
        data.extend(gen.rng.descriptor(15));
    }
    data
}

/// PcrPID, a PID or a StreamType at its limit or above it.
fn limits(gen: &mut Gen, ask: &Ask) -> Vec<u8> {
    let (data, mut bytes, count) = parts(gen, ask);
    let pid: u16 = gen.rng.pick(&[0x1FFF, 0x2000, 0x2000, 0x2031, 0x8000, 0xFFFF]);
    let kind: u16 = gen.rng.pick(&[0xFFFE, 0xFFFF, 0xFFFF]);
    if count == 0 || gen.rng.chance(30) {
        bytes[..2].copy_from_slice(&pid.to_be_bytes());
        return data::between(data, &bytes);
    }
    // The first structure's, or, if there is no other byte in between, the last one's.
    let last = bytes.len() - 21;
    let at = gen.rng.pick(&[6, if bytes[last] == 21 { last } else { 6 }]);
    match gen.rng.chance(50) {
        true => bytes[at + 1..at + 3].copy_from_slice(&pid.to_be_bytes()),
        false => bytes[at + 3..at + 5].copy_from_slice(&kind.to_be_bytes()),
    }
    data::between(data, &bytes)
}

/// A byte cut or a byte too many, anywhere behind the ServiceID; or cut short there.
fn cut(gen: &mut Gen, ask: &Ask) -> Vec<u8> {
    let (data, bytes, _) = parts(gen, ask);
    let mut data = data::between(data, &bytes);
    let place = gen.rng.between(18, data.len() as u64 - 1) as usize;
    match gen.rng.below(7) {
        0 | 1 => drop(data.remove(place)),
        2 => data.insert(place, gen.rng.next() as u8),
        3 => data.truncate(place),
        4 | 5 => data.truncate(gen.rng.pick(&[18, 22, 23, 23, 24, 38, 39])),
        _ => data.truncate(data.len() - 1),
    }
    data
}

/// What makes any request unreadable, behind good structures.
fn tails(gen: &mut Gen, ask: &Ask) -> Vec<u8> {
    let (mut data, bytes, _) = parts(gen, ask);
    let long = gen.rng.chance(50);
    match gen.rng.below(8) {
        0 => data[18..22].fill(0),
        1 => data[30] = gen.rng.pick(&[9, 10, 10, 255]),
        2 => data[31] = gen.rng.pick(&[1, 2, 2, 255]),
        3 => data[32] = gen.rng.pick(&[1, 2, 2, 255]),
        4 => micros(gen, &mut data),
        _ => data.extend(descriptors(gen, long)),
    }
    data::between(data, &bytes)
}

/// MessageSize 4,088: 39 bytes, fifteen structures of 255 bytes and one of 224; or no PIDs at all behind ServiceID 0xFFFF.
fn longer(gen: &mut Gen, ask: &Ask) -> Vec<u8> {
    let mut data = gen.rng.plain_data(ask);
    data.truncate(33);
    if gen.rng.chance(40) {
        data[16..18].fill(0xFF);
        return data;
    }
    let mut list = gen.rng.streams(16);
    for stream in &mut list.list {
        stream.kept = vec![gen.rng.next() as u8; 234];
    }
    list.list[15].kept.truncate(203);
    let mut data = data::separate(data, &list);
    if gen.rng.chance(40) {
        // The last structure one longer or shorter.
        let change = gen.rng.pick(&[1, 0xFF]);
        data[18 + 6 + 15 * 255] = data[18 + 6 + 15 * 255].wrapping_add(change);
    }
    data
}

/// Descriptors, well-formed or not, at the boundaries 3, 4, 254 and 255.
fn descriptors(gen: &mut Gen, long: bool) -> Vec<u8> {
    let mut bytes = Vec::new();
    for _ in 0..gen.rng.below(3) {
        bytes.extend(gen.rng.descriptor(gen.rng.pick(&[4, 5, 254])));
    }
    let last = match (long, gen.rng.below(5)) {
        (true, 0..=1) => gen.rng.descriptor(255),
        (true, 2) => gen.rng.descriptor(254),
        (true, _) => {
            let mut cut = gen.rng.descriptor(254);
            cut.pop();
            cut
        }
        (false, 0) => gen.rng.descriptor(3),
        (false, 1) => gen.rng.descriptor(4),
        (false, 2) => vec![gen.rng.next() as u8],
        (false, 3) => {
            let mut cut = gen.rng.descriptor(4);
            cut.pop();
            cut
        }
        _ => gen.rng.descriptor(gen.rng.below(4) as u8),
    };
    bytes.extend(last);
    bytes
}

/// A Splice_Request, timed or linked, at times with separate PIDs, whose muxpriority_descriptors are on
/// either side of a boundary, good and bad ones mixed.
pub fn mux(gen: &mut Gen) {
    let conn = maybe_uninitialised(gen);
    let mut ask = gen.timed(conn, gen.ahead(gen.rng.between(0, 60)));
    if let Some(prior) = gen.some(Some(conn), &[State::Waiting, State::OnAir]) {
        ask.prior = gen.rng.pick(&[NONE, prior.id]);
    }
    let mut data = gen.rng.plain_data(&ask);
    data.truncate(33);
    let mut list: Vec<Vec<u8>> = Vec::new();
    for _ in 0..gen.rng.pick(&[0, 0, 1, 2, 3]) {
        list.push(gen.rng.good_descriptor());
    }
    let place = gen.rng.below(list.len() as u64 + 1) as usize;
    list.insert(place, one_mux(gen));
    data.extend(list.concat());
    if gen.rng.chance(15) {
        // Cut: in the value, if it is the last.
        data.pop();
    }
    if gen.rng.chance(25) {
        let streams = gen.rng.streams(2);
        data = data::separate(data, &streams);
    }
    gen.send(conn, 0x0007, data);
}

/// A muxpriority_descriptor of a length or value on either side of a boundary.
fn one_mux(gen: &mut Gen) -> Vec<u8> {
    let value = gen.rng.pick(&[0, 0, 1, 5, 10, 11, 11, 255]);
    match gen.rng.below(8) {
        0 => data::named(2, b"SAPI", &[]),
        1 => data::named(2, b"SAPI", &[5, 5]),
        2 => data::named(2, b"SAPI", &[5; 250]),
        3 => gen.rng.good_descriptor(),
        _ => data::mux(value),
    }
}
