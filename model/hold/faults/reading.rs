//! Faults in reading a message: each stands in for one rule of `rules::requests::Reading`.

use crate::hold::watch::descriptors_judged;
use rules::bytes::{half, word};
use rules::descriptors::{self, Found};
use rules::reading::{self};
use rules::requests::{Formed, Read, Reading, Request, SpliceFields, Tail, Why};
use rules::streams::{self, number, of_bytes, Stream, Streams, HEAD, LEAST};

/// The lengths that a descriptor may have.
fn formed_by(bytes: &[u8], least: u8, most: u8) -> Formed<'_> {
    let [tag, length, rest @ ..] = bytes else {
        return Err("123 Splice descriptor without a length");
    };
    let split = rest.split_at_checked(usize::from(*length)).filter(|_| (least..=most).contains(length));
    let (body, behind) = split.ok_or("123 Splice descriptor length")?;
    Ok((*tag, body, behind))
}

pub fn descriptor_255<'d>(_: &Reading, bytes: &'d [u8]) -> Formed<'d> {
    formed_by(bytes, 4, 255)
}

pub fn descriptor_3<'d>(_: &Reading, bytes: &'d [u8]) -> Formed<'d> {
    formed_by(bytes, 0, 254)
}

pub fn linked_micros_checked(r: &Reading, fields: &SpliceFields, returns: u8) -> Result<(), Why> {
    match fields.micros {
        1_000_000.. => Err("123 Splice MicroSeconds above 999,999"),
        _ => reading::check(r, fields, returns),
    }
}

/// The list, with the largest PcrPID and PIDCount taken, and bytes left out behind each structure.
pub fn list_by(r: &Reading, bytes: &[u8], pcr: u64, most: u64, gap: usize) -> Result<(Streams, usize), Why> {
    if bytes.len() < HEAD {
        return Err("123 Splice without a whole PIDCount");
    }
    let (pcr_pid, count) = (number(bytes, 0, 2), number(bytes, 2, 4));
    if pcr_pid > pcr || count > most {
        return Err("123 Splice PcrPID or PIDCount");
    }
    let (mut list, mut at) = (Vec::new(), HEAD);
    for _ in 0..count {
        let (stream, length) = r.stream(bytes.get(at..).unwrap_or_default())?;
        list.push(stream);
        at += length + gap;
    }
    Ok((Streams { pcr_pid, list }, at))
}

/// A structure, with the least Length, the largest PID and the largest StreamType taken.
pub fn one_by(bytes: &[u8], least: usize, pid: u64, kind: u64) -> Result<(Stream, usize), Why> {
    let length = bytes.first().map_or(0, |b| usize::from(*b));
    let whole = bytes.get(..length.max(LEAST)).filter(|_| length >= least);
    let stream = of_bytes(whole.ok_or("123 Splice structure of another Length")?);
    match stream.pid <= pid && stream.kind <= kind {
        true => Ok((stream, length)),
        false => Err("123 Splice PID or StreamType"),
    }
}

pub fn unknown_rate_refused(r: &Reading, bytes: &[u8]) -> Result<(Stream, usize), Why> {
    let (stream, length) = streams::stream(r, bytes)?;
    match [stream.average, stream.highest, stream.lowest].contains(&0xFFFF_FFFF) {
        true => Err("123 Splice rate"),
        false => Ok((stream, length)),
    }
}

pub fn tail_at_18<'d>(r: &Reading, data: &'d [u8]) -> Result<Tail<'d>, Why> {
    if data.len() < 33 || half(data, 16) != 0xFFFF {
        return reading::tail(r, data);
    }
    let (list, _) = r.streams(&data[18..])?;
    Ok(Tail { bytes: &data[18..], streams: Some(list) })
}

pub fn mux_length_6(r: &Reading, body: &[u8]) -> Result<u8, Why> {
    let end = if body.len() == 6 { 5 } else { body.len() };
    descriptors::mux_value(r, &body[..end])
}

/// All values in their order.
pub fn values(r: &Reading, bytes: &[u8]) -> Result<Vec<u8>, Why> {
    let (mut list, mut rest) = (Vec::new(), bytes);
    while let Some((found, behind)) = descriptors::first(r, rest)? {
        if let Found::Mux(value) = found {
            list.push(value);
        }
        rest = behind;
    }
    Ok(list)
}

pub fn mux_bad_before_good(r: &Reading, bytes: &[u8]) -> Result<u8, Why> {
    let mut rest = bytes;
    while let Ok((tag, body, behind)) = r.formed(rest) {
        let bad = r.is_mux(tag, body) && r.mux_value(body).is_err();
        if bad && descriptors_judged(behind).contains(&true) {
            return mux_bad_before_good(r, behind);
        }
        rest = behind;
    }
    descriptors::mux_of(r, bytes)
}

/// The Hardware_Config with its Length at `from`, `most` bytes at most.
pub fn hardware_by(data: &[u8], from: usize, most: usize) -> Result<Vec<u8>, Why> {
    if data.len() < 68 {
        return Err("123 Init of 66 or 67 bytes");
    }
    let whole = 2 + usize::from(half(data, from));
    let kept = data.get(from..from + whole).filter(|_| whole <= most);
    kept.map(<[u8]>::to_vec).ok_or("123 Init Hardware_Config")
}

pub fn hardware_past_the_end(r: &Reading, data: &[u8]) -> Result<Vec<u8>, Why> {
    match reading::hardware(r, data) {
        Err("123 Init Hardware_Config past the end") => Ok(data[66..].to_vec()),
        other => other,
    }
}

pub fn any_type_taken(r: &Reading, data: &[u8]) -> Read {
    match data.len() {
        8 => Ok(Request::Extended { id: word(data, 0) }),
        _ => reading::read_extended(r, data),
    }
}
