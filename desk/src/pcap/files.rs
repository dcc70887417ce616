//! The packets of a capture: classic pcap, and pcapng.

use crate::time::{ninths, MICRO, SECOND};

/// A packet: its time in ninths, its link layer and its bytes.
pub struct Packet<'f> {
    pub at: u64,
    pub link: u32,
    pub bytes: &'f [u8],
}

/// Numbers in the file's own order of bytes.
#[derive(Clone, Copy)]
struct Numbers<'f> {
    bytes: &'f [u8],
    big: bool,
}

impl<'f> Numbers<'f> {
    fn word(&self, at: usize) -> Option<u32> {
        let four: [u8; 4] = self.bytes.get(at..at.checked_add(4)?)?.try_into().ok()?;
        Some(match self.big {
            true => u32::from_be_bytes(four),
            false => u32::from_le_bytes(four),
        })
    }

    fn half(&self, at: usize) -> Option<u16> {
        let two: [u8; 2] = self.bytes.get(at..at.checked_add(2)?)?.try_into().ok()?;
        Some(match self.big {
            true => u16::from_be_bytes(two),
            false => u16::from_le_bytes(two),
        })
    }

    fn part(&self, at: usize, length: usize) -> Option<&'f [u8]> {
        self.bytes.get(at..at.checked_add(length)?)
    }
}

const READ: [u32; 9] = [0, 1, 12, 101, 108, 113, 228, 229, 276];

/// The packets of a capture. A cut last one is dropped.
pub fn packets<'f>(name: &str, bytes: &'f [u8]) -> Result<Vec<Packet<'f>>, String> {
    if bytes.is_empty() {
        return Err(format!("{name}: empty: no capture"));
    }
    let list = match bytes.get(..4) {
        Some([0x0A, 0x0D, 0x0D, 0x0A]) => blocks(name, bytes)?,
        Some([0xA1, 0xB2, 0xC3, 0xD4]) => classic(name, Numbers { bytes, big: true }, 1)?,
        Some([0xD4, 0xC3, 0xB2, 0xA1]) => classic(name, Numbers { bytes, big: false }, 1)?,
        Some([0xA1, 0xB2, 0x3C, 0x4D]) => classic(name, Numbers { bytes, big: true }, 1_000)?,
        Some([0x4D, 0x3C, 0xB2, 0xA1]) => classic(name, Numbers { bytes, big: false }, 1_000)?,
        _ => return Err(format!("{name}: byte 0: no capture (pcap or pcapng)")),
    };
    match list.iter().find(|packet| !READ.contains(&packet.link)) {
        Some(other) if list.iter().all(|p| !READ.contains(&p.link)) => {
            Err(format!("{name}: link layer {} is not read", other.link))
        }
        _ => Ok(list),
    }
}

fn classic<'f>(name: &str, file: Numbers<'f>, per_micro: u32) -> Result<Vec<Packet<'f>>, String> {
    let link = file
        .word(20)
        .ok_or(format!("{name}: byte 4: the head is cut"))?
        & 0xFFFF;
    let packet = |at: usize| {
        let (seconds, part) = (file.word(at)?, file.word(at + 4)? / per_micro);
        let bytes = file.part(at + 16, file.word(at + 8)? as usize)?;
        let at = ninths(seconds, part);
        Some(Packet { at, link, bytes })
    };
    let (mut list, mut at) = (Vec::new(), 24);
    while let Some(packet) = packet(at) {
        at += 16 + packet.bytes.len();
        list.push(packet);
    }
    Ok(list)
}

/// An interface of a section: its link layer, units of time in a second, and what is added to it.
struct Interface {
    link: u32,
    units: u64,
    seconds: u64,
}

/// pcapng: a section begins with its order of bytes; a packet names an interface of it.
fn blocks<'f>(name: &str, bytes: &'f [u8]) -> Result<Vec<Packet<'f>>, String> {
    let mut file = Numbers { bytes, big: false };
    let (mut list, mut faces, mut at) = (Vec::new(), Vec::new(), 0);
    while at + 12 <= bytes.len() {
        if file.word(at) == Some(0x0A0D_0D0A) {
            file.big = match file.part(at + 8, 4) {
                Some([0x1A, 0x2B, 0x3C, 0x4D]) => true,
                Some([0x4D, 0x3C, 0x2B, 0x1A]) => false,
                _ => return Err(format!("{name}: byte {}: no section of pcapng", at + 8)),
            };
            faces.clear();
        }
        let length = file.word(at + 4).unwrap_or(0) as usize;
        if length < 12 || length % 4 != 0 {
            return Err(format!("{name}: byte {}: no block of pcapng", at + 4));
        }
        let Some(block) = file.part(at, length) else {
            break;
        };
        let block = Numbers {
            bytes: &block[..length - 4],
            ..file
        };
        match file.word(at) {
            Some(1) => faces.extend(interface(&block)),
            Some(kind @ (2 | 3 | 6)) => list.extend(packet(kind, &block, &faces)),
            _ => {}
        }
        at += length;
    }
    Ok(list)
}

/// Interface Description Block: the link layer, and options 9 (if_tsresol) and 14 (if_tsoffset).
fn interface(block: &Numbers) -> Option<Interface> {
    let mut made = Interface {
        link: block.half(8)?.into(),
        units: 1_000_000,
        seconds: 0,
    };
    let mut at = 16;
    while let (Some(code), Some(length)) = (block.half(at), block.half(at + 2)) {
        let length = usize::from(length);
        match (code, block.part(at + 4, length)) {
            (9, Some([power])) => {
                let base: u64 = if power & 0x80 != 0 { 2 } else { 10 };
                let units = base.checked_pow(u32::from(power & 0x7F));
                made.units = units.unwrap_or(u64::MAX);
            }
            (14, Some(eight)) if length == 8 => {
                let (first, second) = (block.word(at + 4)?, block.word(at + 8)?);
                let words = if block.big {
                    (first, second)
                } else {
                    (second, first)
                };
                made.seconds = u64::from(words.0) << 32 | u64::from(words.1);
                debug_assert_eq!(eight.len(), 8);
            }
            _ => {}
        }
        at += 4 + length.div_ceil(4) * 4;
    }
    Some(made)
}

/// Enhanced (6), simple (3, without a time) and the old Packet Block (2).
fn packet<'f>(kind: u32, block: &Numbers<'f>, faces: &[Interface]) -> Option<Packet<'f>> {
    let (number, at) = match kind {
        6 => (block.word(8)? as usize, 12),
        2 => (usize::from(block.half(8)?), 12),
        _ => (0, 0),
    };
    let face = faces.get(number)?;
    if at == 0 {
        let length = (block.word(8)? as usize).min(block.bytes.len().checked_sub(12)?);
        let (at, link) = (0, face.link);
        return Some(Packet {
            at,
            link,
            bytes: block.part(12, length)?,
        });
    }
    let time = u64::from(block.word(at)?) << 32 | u64::from(block.word(at + 4)?);
    let bytes = block.part(at + 16, block.word(at + 8)? as usize)?;
    let (seconds, part) = (time / face.units, time % face.units);
    let micros = u128::from(part) * 1_000_000 / u128::from(face.units);
    let seconds = seconds.wrapping_add(face.seconds).min(u64::from(u32::MAX));
    Some(Packet {
        at: seconds * SECOND + micros as u64 * MICRO,
        link: face.link,
        bytes,
    })
}
