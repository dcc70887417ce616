//! Sections of SCTE 35 drawn (02, CR 7): whole, cut and damaged.

use crate::gen::data::named;
use crate::gen::draw::Rng;
use crate::people::cue_call::{self, WRAP};
use crate::people::section_bytes::{closed, remade, Command, Insert, Section, Time};
use crate::rules::NONE;

/// A section: as its sender meant it, or damaged in one way, at times in two.
pub fn section(rng: &mut Rng) -> Vec<u8> {
    let mut section = whole(rng);
    if rng.chance(12) {
        other_length(rng, &mut section);
    }
    let mut bytes = section.bytes();
    if rng.chance(12) {
        bytes = sized(rng, &section);
    }
    match rng.below(100) {
        0..=44 => bytes,
        45..=56 => cut(rng, bytes),
        57..=64 => flipped(rng, bytes),
        65..=73 => wrong_crc(rng, bytes),
        74..=79 => other_table(rng, bytes),
        80..=86 => loop_length(rng, section),
        87..=92 => wrong_size(rng, bytes),
        93..=95 => {
            other_length(rng, &mut section);
            wrong_crc(rng, section.bytes())
        }
        _ => senseless(rng),
    }
}

/// A section of any command with all of its flags.
fn whole(rng: &mut Rng) -> Section {
    let command = command(rng);
    let mut section = Section::new(command);
    section.adjustment = adjustment(rng, &section.command);
    if rng.chance(20) {
        section.indicators = rng.below(16) as u8;
        section.protocol = rng.pick(&[0, 1, 0xFF]);
        section.algorithm = rng.below(64) as u8;
        section.cw_index = rng.next() as u8;
        section.tier = rng.below(0x1000) as u16;
    }
    if rng.chance(30) {
        section.length = Some(0xFFF);
    }
    if rng.chance(40) {
        section.descriptors = descriptors(rng);
    }
    if rng.chance(25) {
        let count = rng.pick(&[1, 1, 2, 4, 8, 30]);
        section.stuffing = bytes_of(rng, count);
    }
    section
}

fn bytes_of(rng: &mut Rng, count: usize) -> Vec<u8> {
    (0..count).map(|_| rng.next() as u8).collect()
}

fn pts_time(rng: &mut Rng) -> u64 {
    let drawn = rng.below(WRAP);
    rng.pick(&[0, 1, 0xFFFF_FFFF, 1 << 32, WRAP - 1, drawn, drawn, drawn, drawn])
}

fn time(rng: &mut Rng) -> Time {
    rng.chance(75).then(|| pts_time(rng))
}

fn adjustment(rng: &mut Rng, command: &Command) -> u64 {
    let time = match command {
        Command::TimeSignal(Some(time)) => *time,
        Command::Insert(insert) => insert.time.unwrap_or(0),
        _ => 0,
    };
    let drawn = rng.below(WRAP);
    let exact = (WRAP - time) % WRAP;
    rng.pick(&[0, 0, 0, 0, 1, 1 << 32, WRAP - 1, exact, (exact + 1) % WRAP, drawn, drawn])
}

fn command(rng: &mut Rng) -> Command {
    match rng.below(20) {
        0..=2 => Command::Null,
        3..=12 => Command::Insert(insert(rng)),
        13..=17 => Command::TimeSignal(time(rng)),
        _ => {
            let kind = rng.pick(&[0x04, 0x04, 0x07, 0xFF, 0x01, 0x02, 0x03, rng.between(8, 254) as u8]);
            let count = rng.pick(&[0, 1, 4, 5, 10, 15]);
            Command::Other(kind, bytes_of(rng, count))
        }
    }
}

fn insert(rng: &mut Rng) -> Insert {
    let mut insert = Insert::new(rng.next() as u32);
    insert.cancelled = rng.chance(15);
    insert.out = rng.chance(50);
    insert.immediate = rng.chance(30);
    insert.time = time(rng);
    if rng.chance(50) {
        insert.duration = Some((rng.chance(50), pts_time(rng)));
    }
    if rng.chance(20) {
        let count = rng.pick(&[0, 1, 2, 5]);
        let list = (0..count).map(|_| (rng.next() as u8, time(rng))).collect();
        insert.components = Some(list);
    }
    insert.program = rng.next() as u16;
    insert.avail = rng.next() as u8;
    insert.avails = rng.next() as u8;
    insert
}

/// Descriptors as SCTE 35 has them, or any bytes: they are not walked.
fn descriptors(rng: &mut Rng) -> Vec<u8> {
    if rng.chance(15) {
        let count = rng.between(1, 20) as usize;
        return bytes_of(rng, count);
    }
    let mut list = Vec::new();
    for _ in 0..rng.between(1, 4) {
        let count = rng.pick(&[0, 4, 4, 10, 20]);
        let private = bytes_of(rng, count);
        let identifier = rng.pick(&[*b"CUEI", *b"CUEI", *b"ABCD"]);
        list.extend(named(rng.below(4) as u8, &identifier, &private));
    }
    list
}

/// splice_command_length: one less, one more, or another.
fn other_length(rng: &mut Rng, section: &mut Section) {
    let size = section.command.bytes().len() as u16;
    let other = [size.saturating_sub(1), size + 1, 0, 5, 6, 0xFFE, rng.below(0x1000) as u16];
    section.length = Some(rng.pick(&other));
}

/// Stuffed, or with descriptors, to a size around the limits.
fn sized(rng: &mut Rng, section: &Section) -> Vec<u8> {
    let mut section = section.clone();
    if rng.chance(15) {
        // the smallest
        section.command = Command::Null;
        section.descriptors.clear();
        section.stuffing.clear();
        section.loop_length = None;
        section.length = rng.pick(&[None, Some(0xFFF)]);
        return section.bytes();
    }
    let size = rng.pick(&[510, 511, 511, 512, 512, 512, 513, 513, 514, 600, 1024 + 40, 4098]);
    let missing = usize::saturating_sub(size, section.bytes().len());
    let more = bytes_of(rng, missing);
    if rng.chance(50) {
        section.descriptors.extend(more);
    } else {
        section.stuffing.extend(more);
    }
    section.bytes()
}

/// Cut anywhere: with its lengths and CRC_32 made again, so that the inner lengths are wrong, or not.
fn cut(rng: &mut Rng, mut bytes: Vec<u8>) -> Vec<u8> {
    let short = rng.below(bytes.len() as u64) as usize;
    let behind = rng.between(18, 36.min(bytes.len() as u64).max(19)) as usize;
    bytes.truncate(rng.pick(&[short, behind, behind, behind, 19, 2]));
    if rng.chance(85) {
        return remade(bytes);
    }
    bytes
}

/// A bit of it, with its CRC_32 made again or not.
fn flipped(rng: &mut Rng, mut bytes: Vec<u8>) -> Vec<u8> {
    let any = rng.below(bytes.len() as u64) as usize;
    let front = rng.below(22.min(bytes.len() as u64)) as usize;
    let at = rng.pick(&[any, front, front, 0, 4, 13, 11, 12]).min(bytes.len() - 1);
    bytes[at] ^= 1 << rng.below(8);
    if rng.chance(60) {
        return closed(bytes);
    }
    bytes
}

/// zlib's CRC-32: reflected and inverted.
fn zlib(bytes: &[u8]) -> u32 {
    let mut register = 0xFFFF_FFFFu32;
    for byte in bytes {
        register ^= u32::from(*byte);
        for _ in 0..8 {
            let low = register & 1;
            register = register >> 1 ^ (0xEDB8_8320 * low);
        }
    }
    !register
}

/// A CRC from another first register, by another polynomial, or of bytes turned round.
fn crc_by(bytes: &[u8], first: u32, polynomial: u32, turned: fn(u8) -> u8) -> u32 {
    bytes.iter().fold(first, |register, byte| {
        let mixed = register ^ u32::from(turned(*byte)) << 24;
        (0..8).fold(mixed, |bits, _| bits << 1 ^ if bits >> 31 == 1 { polynomial } else { 0 })
    })
}

/// CRCs that a mistaken reading would take for right, and others.
fn wrong_crc(rng: &mut Rng, mut bytes: Vec<u8>) -> Vec<u8> {
    let Some(end) = bytes.len().checked_sub(4) else {
        return bytes;
    };
    let front = &bytes[..end];
    let right = cue_call::crc(front);
    let place = rng.below(32);
    let reversed = crc_by(front, NONE, 0x04C1_1DB7, u8::reverse_bits).to_be_bytes();
    let wrong = rng.pick(&[
        crc_by(front, 0, 0x04C1_1DB7, |byte| byte),
        crc_by(front, NONE, 0xEDB8_8320, |byte| byte),
        u32::from_be_bytes(reversed.map(u8::reverse_bits)),
        !right,
        right.swap_bytes(),
        right.reverse_bits(),
        zlib(front),
        zlib(front).swap_bytes(),
        0,
        NONE,
        right ^ 1 << place,
        right.wrapping_add(1),
    ]);
    bytes[end..].copy_from_slice(&wrong.to_be_bytes());
    bytes
}

/// Another table or an encrypted section, with a right or a wrong CRC_32.
fn other_table(rng: &mut Rng, mut bytes: Vec<u8>) -> Vec<u8> {
    if rng.chance(50) {
        bytes[0] = rng.pick(&[0xFB, 0xFD, 0xFE, 0x00, 0x02, 0x7C]);
    } else {
        bytes[4] |= 0x80;
    }
    if rng.chance(75) {
        return closed(bytes);
    }
    wrong_crc(rng, bytes)
}

/// descriptor_loop_length around what is left.
fn loop_length(rng: &mut Rng, mut section: Section) -> Vec<u8> {
    let left = section.descriptors.len() + section.stuffing.len();
    let left = left as u16;
    let one_less = left.saturating_sub(1);
    let other = [left, left, left + 1, left + 1, left + 2, left + 4, one_less, rng.next() as u16, 0xFFFF];
    section.loop_length = Some(rng.pick(&other));
    section.bytes()
}

/// Not 3 + section_length bytes.
fn wrong_size(rng: &mut Rng, mut bytes: Vec<u8>) -> Vec<u8> {
    match rng.below(6) {
        0 => bytes.push(rng.pick(&[0, 0xFF])),
        1 => drop(bytes.pop()),
        2 => bytes[1] ^= rng.pick(&[0x04, 0x08, 0x0C]),
        3 => bytes[2] ^= 1 << rng.below(8),
        4 => {
            bytes.extend(vec![0xFF; rng.between(2, 188) as usize]);
        }
        _ => bytes[2] = rng.next() as u8,
    }
    if rng.chance(50) {
        return closed(bytes);
    }
    bytes
}

/// Any bytes, with section_length and CRC_32 right or not.
fn senseless(rng: &mut Rng) -> Vec<u8> {
    let count = rng.pick(&[0, 1, 2, 3, 18, 19, 20, 21, 25, 26, 40, 100]);
    let mut bytes = bytes_of(rng, count);
    if bytes.len() >= 14 && rng.chance(80) {
        bytes[0] = 0xFC;
        bytes[4] &= 0x7F;
        bytes[13] = rng.pick(&[0x00, 0x05, 0x05, 0x06]);
    }
    match rng.chance(80) {
        true => remade(bytes),
        false => bytes,
    }
}

/// N sections as their senders mean them, for programs that walk descriptors and read other commands.
pub fn good(seed: u64, n: u64) -> Vec<Vec<u8>> {
    let mut rng = Rng::new(seed ^ 0x7003);
    (0..n).map(|_| meant(&mut rng).bytes()).collect()
}

fn meant(rng: &mut Rng) -> Section {
    let mut section = whole(rng);
    if !section.descriptors.is_empty() {
        let avail = |rng: &mut Rng| named(0, b"CUEI", &bytes_of(rng, 4));
        let list: Vec<Vec<u8>> = (0..rng.between(1, 4)).map(|_| avail(rng)).collect();
        section.descriptors = list.concat();
    }
    if let Command::Other(kind, _) = section.command {
        let private = [b"ABCD".to_vec(), bytes_of(rng, 3)].concat();
        section.command = match kind {
            // no event, or one that is cancelled
            0x04 => Command::Other(kind, rng.pick(&[vec![0], vec![1, 0, 0, 0, 7, 0xFF]])),
            0xFF => Command::Other(kind, private),
            _ => Command::Other(0x07, Vec::new()),
        };
    }
    section
}

/// Each command once, with each of its flags, in few bytes.
pub fn plainest() -> Vec<Section> {
    let mut commands = vec![
        Command::Null,
        Command::TimeSignal(None),
        Command::TimeSignal(Some(0x1_2345_6789)),
        Command::Other(0x04, vec![0]),
        Command::Other(0x07, Vec::new()),
        Command::Other(0xFF, b"ABCD".to_vec()),
    ];
    for flags in 0..32 {
        let flag = |place: u32| flags >> place & 1 == 1;
        let mut insert = Insert::new(0x0102_0304);
        insert.cancelled = flags == 0;
        insert.immediate = flag(0);
        insert.time = flag(1).then_some(0xFFFF_FFF0);
        insert.duration = flag(2).then_some((flag(3), 90_000));
        insert.components = flag(4).then(|| vec![(1, insert.time), (2, None)]);
        commands.push(Command::Insert(insert));
    }
    commands.into_iter().map(Section::new).collect()
}

#[cfg(test)]
mod tests {
    use super::*;

    #[test]
    fn other_crcs_are_the_known_ones() {
        assert_eq!(zlib(b"123456789"), 0xCBF4_3926);
        // the right one, and from a register of 0 that of CRC-32/CKSUM before its length and end
        assert_eq!(crc_by(b"123456789", NONE, 0x04C1_1DB7, |byte| byte), 0x0376_E6E7);
        assert_eq!(crc_by(&[0x80], 0, 0x04C1_1DB7, |byte| byte), crc_by(&[0x01], 0, 0x04C1_1DB7, u8::reverse_bits));
    }
}
