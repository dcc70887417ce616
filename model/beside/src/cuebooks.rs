//! What must come of a section (02, CR 7), by docs/SCTE35.md's sentences alone: its bits are read from the
//! front, and its CRC_32 is a division.

use model::people::cue_call::Given;

#[derive(Clone, Copy, Debug, PartialEq, Eq)]
pub enum Due {
    Nothing,
    Bad,
    /// It passes, with the sum of pts_time and pts_adjustment.
    Sum(u64),
    Timeless,
}

/// "3 + section_length bytes long", from 20 to 512.
pub fn fits(section: &[u8]) -> bool {
    let bits = bits(section);
    (20..=512).contains(&section.len()) && 3 + number(&bits[12..24]) == section.len() as u64
}

fn bits(bytes: &[u8]) -> Vec<bool> {
    let each = |byte: &u8| (0..8).rev().map(|place| byte >> place & 1 == 1).collect();
    let list: Vec<Vec<bool>> = bytes.iter().map(each).collect();
    list.concat()
}

fn number(bits: &[bool]) -> u64 {
    bits.iter().fold(0, |sum, bit| 2 * sum + u64::from(*bit))
}

/// A register of ones at the start is the same as the first 32 bits turned over. CRC_32 is right if the
/// polynomial divides what is left.
fn divides(section: &[u8]) -> bool {
    let mut rest = bits(section);
    rest[..32].iter_mut().for_each(|bit| *bit = !*bit);
    let polynomial = [&[true][..], &bits(&[0x04, 0xC1, 0x1D, 0xB7])].concat();
    for at in 0..rest.len() - 32 {
        if rest[at] {
            let place = rest[at..].iter_mut().zip(&polynomial);
            place.for_each(|(bit, other)| *bit ^= *other);
        }
    }
    rest.iter().all(|bit| !*bit)
}

/// A command's bits, as far as they are read.
struct Command<'b> {
    bits: &'b [bool],
    at: usize,
    time: Option<u64>,
}

impl Command<'_> {
    fn take(&mut self, width: usize) -> Option<u64> {
        let taken = self.bits.get(self.at..self.at + width)?;
        self.at += width;
        Some(number(taken))
    }

    fn splice_time(&mut self) -> Option<()> {
        if self.take(1)? == 1 {
            self.take(6)?;
            self.time = Some(self.take(33)?);
        } else {
            self.take(7)?;
        }
        Some(())
    }

    /// Whether it is in component mode. None if it is too short.
    fn splice_insert(&mut self) -> Option<bool> {
        self.take(32)?;
        let cancelled = self.take(8)? >= 0x80;
        if cancelled {
            return Some(false);
        }
        self.take(1)?;
        let (program, duration, immediate) = (self.take(1)?, self.take(1)?, self.take(1)?);
        self.take(4)?;
        if program == 0 {
            return Some(true);
        }
        if immediate == 0 {
            self.splice_time()?;
        }
        self.take(40 * duration as usize)?;
        self.take(32)?;
        Some(false)
    }
}

/// Of a section that `fits`.
pub fn due(section: &[u8]) -> Due {
    let bits = bits(section);
    if !divides(section) {
        return Due::Bad;
    }
    let (end, crc) = (bits.len() - 48, bits.len() - 32);
    let mut command = Command { bits: &bits[..end], at: 14 * 8, time: None };
    let component = match (number(&bits[..8]), bits[32], number(&bits[104..112])) {
        (0xFC, false, 0x00) => Some(false),
        (0xFC, false, 0x05) => command.splice_insert(),
        (0xFC, false, 0x06) => command.splice_time().map(|()| false),
        _ => return Due::Nothing,
    };
    match component {
        Some(true) => return Due::Nothing,
        None => return Due::Bad,
        Some(false) => {}
    }
    let size = (command.at / 8 - 14) as u64;
    let given = number(&bits[92..104]);
    let behind = command.at + 16;
    let descriptors = number(&bits[command.at..behind]) as usize;
    if (given != size && given != 0xFFF) || behind + 8 * descriptors > crc {
        return Due::Bad;
    }
    let adjustment = number(&bits[39..72]);
    command.time.map_or(Due::Timeless, |time| Due::Sum(time + adjustment))
}

/// Whether this is the time: of all whole numbers of ticks behind the given instant the one that leads from
/// the given PTS to the cue's, modulo 2^33, and less than a microsecond cut off.
pub fn timely(due: Due, given: &Given, (seconds, micros): (u32, u32)) -> bool {
    let ones = (seconds, micros) == (u32::MAX, u32::MAX);
    let Due::Sum(sum) = due else {
        return ones;
    };
    let turn = 1u128 << 33;
    let (sum, pts) = (u128::from(sum), u128::from(given.pts));
    let ticks = (sum % turn + turn - pts % turn) % turn;
    let ninths = |seconds: u32, micros: u32| u128::from(seconds) * 9_000_000 + u128::from(micros) * 9;
    let exact = ninths(given.seconds, given.micros) + 100 * ticks;
    if exact >= (1 << 32) * 9_000_000 {
        return ones;
    }
    let written = ninths(seconds, micros);
    micros <= 999_999 && written <= exact && exact < written + 9
}

#[cfg(test)]
mod tests {
    use super::*;

    const SECOND: [u8; 25] = [
        0xFC, 0x30, 0x16, 0x00, 0x01, 0x00, 0x00, 0x00, 0x10, 0x00, 0xFF, 0xF0, 0x05, 0x06, 0xFF, 0x23, 0x45, 0x67, 0x89, 0x00,
        0x00, 0x71, 0x3B, 0x22, 0xBD,
    ];

    #[test]
    fn the_pages_second_section() {
        assert!(fits(&SECOND));
        assert!(!fits(&SECOND[..24]));
        assert_eq!(due(&SECOND), Due::Sum(0x1_2345_6789 + 0x1_0000_0010));
        let given = |pts| Given { section: SECOND.to_vec(), pts, seconds: 1_000, micros: 0 };
        let cue = due(&SECOND);
        assert!(timely(cue, &given(591_651_064), (1_001, 111_122)));
        assert!(!timely(cue, &given(591_651_064), (1_001, 111_123)));
        assert!(timely(cue, &given(591_751_066), (96_443, 717_677)));
        let mut other = SECOND;
        other[15] ^= 4;
        assert_eq!(due(&other), Due::Bad);
    }
}
