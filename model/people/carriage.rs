//! Sections in a transport stream (docs/SCTE35.md, "In a transport stream"): found by PAT and PMT, and put into
//! a stream that other programs open. For the bench only.

use crate::people::cue_call::section_length;
use crate::people::section_bytes::remade;
use std::collections::BTreeMap;

const PACKET: usize = 188;
const SYNC: u8 = 0x47;
/// The PIDs of the streams that are written here.
const PMT_PID: u16 = 0x0100;
pub const CUE_PID: u16 = 0x01F4;
/// "The PMT names the PID with stream_type 0x86".
const CUE_TYPE: u8 = 0x86;
/// No PCR.
const NO_PID: u16 = 0x1FFF;

/// A PID's sections as its packets come.
#[derive(Default)]
struct Assembly {
    bytes: Vec<u8>,
    begun: bool,
    counter: Option<u8>,
    found: Vec<Vec<u8>>,
}

impl Assembly {
    /// "A section goes on in the next packets of its PID; 0xFF behind it is filling."
    fn packet(&mut self, begins: bool, counter: u8, payload: &[u8]) {
        match self.counter.replace(counter) {
            Some(last) if last == counter => return,
            Some(last) if (last + 1) % 16 != counter => {
                self.begun = false;
                self.bytes.clear();
            }
            _ => {}
        }
        if !begins {
            return self.more(payload);
        }
        let Some((pointer, rest)) = payload.split_first() else {
            return;
        };
        let (before, behind) = rest.split_at(rest.len().min(usize::from(*pointer)));
        self.more(before);
        self.bytes.clear();
        self.begun = true;
        self.more(behind);
    }

    fn more(&mut self, bytes: &[u8]) {
        if !self.begun {
            return;
        }
        self.bytes.extend(bytes);
        while self.bytes.len() >= 3 && self.bytes[0] != 0xFF {
            let length = 3 + section_length(&self.bytes);
            if self.bytes.len() < length {
                return;
            }
            let rest = self.bytes.split_off(length);
            self.found.push(std::mem::replace(&mut self.bytes, rest));
        }
        if self.bytes.first() == Some(&0xFF) {
            self.begun = false;
            self.bytes.clear();
        }
    }
}

/// All sections of each PID.
fn assembled(stream: &[u8]) -> Result<BTreeMap<u16, Vec<Vec<u8>>>, String> {
    let synced = |at: &usize| {
        let marks = (0..3).map(|n| stream.get(at + n * PACKET));
        marks.flatten().all(|byte| *byte == SYNC)
    };
    let begin = (0..stream.len().min(PACKET)).find(synced);
    let begin = begin.ok_or("no packets of 188 bytes from 0x47")?;
    let mut pids: BTreeMap<u16, Assembly> = BTreeMap::new();
    for packet in stream[begin..].chunks_exact(PACKET) {
        let [sync, high, low, control, rest @ ..] = packet else {
            continue;
        };
        // transport_error_indicator, and a packet without payload
        if *sync != SYNC || high & 0x80 != 0 || control & 0x10 == 0 {
            continue;
        }
        let pid = u16::from_be_bytes([high & 0x1F, *low]);
        let adaptation = match control & 0x20 {
            0 => 0,
            _ => 1 + usize::from(rest[0]),
        };
        let payload = rest.get(adaptation..).unwrap_or_default();
        let assembly = pids.entry(pid).or_default();
        assembly.packet(high & 0x40 != 0, control & 0x0F, payload);
    }
    let found = |(pid, assembly): (u16, Assembly)| (pid, assembly.found);
    Ok(pids.into_iter().map(found).collect())
}

fn pid_at(bytes: &[u8]) -> u16 {
    u16::from_be_bytes([bytes[0] & 0x1F, bytes[1]])
}

/// The PIDs of the PMTs that a PAT names.
fn maps_of(pat: &[u8]) -> Vec<u16> {
    if pat.len() < 12 || pat[0] != 0x00 {
        return Vec::new();
    }
    let programs = pat[8..pat.len() - 4].chunks_exact(4);
    let named = programs.filter(|four| four[..2] != [0, 0]);
    named.map(|four| pid_at(&four[2..])).collect()
}

/// The PIDs of stream_type 0x86 in a PMT.
fn cues_of(pmt: &[u8]) -> Vec<u16> {
    let mut list = Vec::new();
    if pmt.len() < 16 || pmt[0] != 0x02 {
        return list;
    }
    let end = pmt.len() - 4;
    let mut at = 12 + (usize::from(pmt[10] & 0x0F) << 8 | usize::from(pmt[11]));
    while at + 5 <= end {
        if pmt[at] == CUE_TYPE {
            list.push(pid_at(&pmt[at + 1..]));
        }
        at += 5 + (usize::from(pmt[at + 3] & 0x0F) << 8 | usize::from(pmt[at + 4]));
    }
    list
}

/// A PID has 13 bits.
pub fn pid(number: u64) -> Result<u16, String> {
    let fits = u16::try_from(number).ok().filter(|pid| *pid <= NO_PID);
    fits.ok_or(format!("no PID: {number}"))
}

/// The sections of a PID, or of each that the stream's tables name as one of cues.
pub fn sections(stream: &[u8], pid: Option<u16>) -> Result<Vec<(u16, Vec<u8>)>, String> {
    let all = assembled(stream)?;
    let of = |pid: u16| all.get(&pid).into_iter().flatten();
    let pids = match pid {
        Some(pid) => vec![pid],
        None => {
            let maps = of(0).flat_map(|pat| maps_of(pat));
            let mut pids: Vec<u16> = maps.flat_map(of).flat_map(|pmt| cues_of(pmt)).collect();
            pids.sort();
            pids.dedup();
            pids
        }
    };
    if pids.is_empty() {
        return Err("no PID of stream_type 0x86 in its tables: --pid names one".to_string());
    }
    let each = |pid: u16| of(pid).map(move |section| (pid, section.clone()));
    Ok(pids.into_iter().flat_map(each).collect())
}

/// A stream that is being written.
struct Stream {
    bytes: Vec<u8>,
    counters: BTreeMap<u16, u8>,
}

impl Stream {
    /// A section from a packet's beginning on.
    fn section(&mut self, pid: u16, section: &[u8]) {
        let payload = [&[0], section].concat();
        for (place, piece) in payload.chunks(PACKET - 4).enumerate() {
            let counter = self.counters.entry(pid).or_insert(0);
            let begins = if place == 0 { 0x40 } else { 0 };
            let [high, low] = pid.to_be_bytes();
            self.bytes.extend([SYNC, begins | high, low, 0x10 | *counter]);
            *counter = (*counter + 1) % 16;
            self.bytes.extend(piece);
            let filling = PACKET - 4 - piece.len();
            self.bytes.extend(vec![0xFF; filling]);
        }
    }
}

fn pid_bytes(pid: u16) -> [u8; 2] {
    (0xE000 | pid).to_be_bytes()
}

fn pat() -> Vec<u8> {
    let [high, low] = pid_bytes(PMT_PID);
    remade(vec![0x00, 0xB0, 0, 0, 1, 0xC1, 0, 0, 0, 1, high, low, 0, 0, 0, 0])
}

/// "the program's registration descriptor is 05 04 43 55 45 49".
fn pmt() -> Vec<u8> {
    let mut bytes = vec![0x02, 0xB0, 0, 0, 1, 0xC1, 0, 0];
    bytes.extend(pid_bytes(NO_PID));
    bytes.extend([0xF0, 6, 0x05, 0x04]);
    bytes.extend(b"CUEI");
    bytes.push(CUE_TYPE);
    bytes.extend(pid_bytes(CUE_PID));
    bytes.extend([0xF0, 0]);
    bytes.extend([0; 4]);
    remade(bytes)
}

/// A stream with these sections: its tables before each 50 of them.
pub fn stream(sections: &[Vec<u8>]) -> Vec<u8> {
    let mut stream = Stream { bytes: Vec::new(), counters: BTreeMap::new() };
    for some in sections.chunks(50) {
        stream.section(0, &pat());
        stream.section(PMT_PID, &pmt());
        for section in some {
            stream.section(CUE_PID, section);
        }
    }
    stream.bytes
}

#[cfg(test)]
mod tests {
    use super::*;
    use crate::people::section_bytes::{Command, Section};

    fn of_size(size: usize) -> Vec<u8> {
        let mut section = Section::new(Command::Null);
        section.stuffing = vec![0xFF; size - 20];
        section.bytes()
    }

    #[test]
    fn sections_come_back() {
        let sizes = [20, 183, 184, 183 + 184, 183 + 185, 512, 25];
        let list: Vec<Vec<u8>> = sizes.iter().cycle().take(60).map(|n| of_size(*n)).collect();
        let bytes = stream(&list);
        assert!(bytes.len().is_multiple_of(PACKET));
        let found = sections(&bytes, None).unwrap();
        assert!(found.iter().all(|(pid, _)| *pid == CUE_PID));
        let found: Vec<Vec<u8>> = found.into_iter().map(|(_, s)| s).collect();
        assert_eq!(found, list);
        // not from its first byte on, and by its PID
        let shifted = [&[0x47, 1, 2], &bytes[..]].concat();
        assert_eq!(sections(&shifted, Some(CUE_PID)).unwrap().len(), 60);
        assert_eq!(sections(&bytes, Some(77)), Ok(Vec::new()));
        assert!(sections(&of_size(400), None).is_err());
    }

    #[test]
    fn a_lost_packet_loses_its_section_only() {
        let list = [of_size(500), of_size(501), of_size(502)];
        let bytes = stream(&list);
        // tables, then three packets each: the second one's middle is lost
        let lost = [&bytes[..6 * PACKET], &bytes[7 * PACKET..]].concat();
        let found = sections(&lost, None).unwrap();
        let lengths: Vec<usize> = found.iter().map(|(_, s)| s.len()).collect();
        assert_eq!(lengths, [500, 502]);
        // a packet sent twice is taken once
        let twice = [&bytes[..3 * PACKET], &bytes[2 * PACKET..]].concat();
        assert_eq!(sections(&twice, None).unwrap().len(), 3);
    }

    #[test]
    fn two_sections_in_a_packet() {
        let (one, two) = (of_size(30), of_size(40));
        let mut packet = vec![SYNC, 0x41, 0xF4, 0x30, 1, 0];
        // an adaptation field of one byte; a pointer over three bytes of a section before it
        packet.extend([3, 9, 9, 9]);
        packet.extend([&one[..], &two].concat());
        packet.resize(PACKET, 0xFF);
        let found = sections(&packet, Some(CUE_PID)).unwrap();
        let found: Vec<Vec<u8>> = found.into_iter().map(|(_, s)| s).collect();
        assert_eq!(found, [one, two]);
    }
}
