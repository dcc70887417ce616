//! Recordings cut, with bytes that are no mark, and with headers above 4,088.

use super::call_damage::{connection_changed, connection_of, dropped};
use super::turns::{answered, bytes_of, place, refused, with, Damaged, Turn};
use crate::gen::draw::Rng;
use crate::people::check::{Finding, LONGEST};
use crate::people::make_recording::{entries, is_call};

pub fn whole(_: &mut Rng, turns: &[Turn]) -> Damaged {
    Some((bytes_of(turns), Some(Finding::None)))
}

pub fn cut(rng: &mut Rng, turns: &[Turn]) -> Damaged {
    let mut bytes = bytes_of(turns);
    let (list, _) = entries(&bytes);
    let entry = rng.pick(&list);
    let to = entry.at + rng.between(1, entry.bytes.len() as u64 - 1) as usize;
    bytes.truncate(to);
    Some((bytes, Some(Finding::None)))
}

pub fn cut_between(rng: &mut Rng, turns: &[Turn]) -> Damaged {
    let at = place(rng, turns, |t| !t.records.is_empty())?;
    let mut turns = turns[..=at].to_vec();
    let keep = rng.below(turns[at].records.len() as u64) as usize;
    turns[at].records.truncate(keep);
    Some((bytes_of(&turns), Some(Finding::Call(at + 1))))
}

/// The last call has a wrong record, and the entry behind that is cut.
pub fn cut_behind_wrong(rng: &mut Rng, turns: &[Turn]) -> Damaged {
    let at = place(rng, turns, answered)?;
    let (mut bytes, known) = connection_of(rng, &turns[..=at], at)?;
    bytes.extend(rng.pick(&[vec![0x52], vec![0x4F], vec![0x4D, 0, 0, 5], vec![0x45]]));
    Some((bytes, known))
}

/// A record of an earlier call is missing, and the last entry is cut.
pub fn dropped_and_cut(rng: &mut Rng, turns: &[Turn]) -> Damaged {
    let (mut bytes, known) = dropped(rng, &turns[..turns.len() - 1])?;
    let last = bytes_of(&turns[turns.len() - 1..]);
    let first = entries(&last).0[0].bytes.len();
    bytes.extend(&last[..first]);
    bytes.push(rng.pick(&[0x45, 0x52, 0x4F, 0x54]));
    Some((bytes, known))
}

/// The records of the last call are missing, and the call behind it is cut.
pub fn cut_call(rng: &mut Rng, turns: &[Turn]) -> Damaged {
    let at = place(rng, turns, |t| !t.records.is_empty())?;
    let mut turns = turns[..=at].to_vec();
    let keep = rng.below(turns[at].records.len() as u64) as usize;
    turns[at].records.truncate(keep);
    let mut bytes = bytes_of(&turns);
    bytes.extend(rng.pick(&[vec![0x4F], vec![0x54, 0, 0], vec![0x4D, 0, 0, 5, 0, 8, 0]]));
    Some((bytes, Some(Finding::None)))
}

/// A byte that is no mark.
pub fn unknown(rng: &mut Rng) -> u8 {
    loop {
        let near = rng.pick(&[0x42, 0x44, 0x46, 0x4C, 0x4E, 0x50, 0x51, 0x53, 0x55, 0x00, 0xFF]);
        let byte = rng.pick(&[near, rng.next() as u8]);
        if !is_call(byte) && byte != 0x45 && byte != 0x52 {
            return byte;
        }
    }
}

pub fn mark_at_start(rng: &mut Rng, turns: &[Turn]) -> Damaged {
    let bytes = [vec![unknown(rng)], bytes_of(turns)].concat();
    Some((bytes, Some(Finding::Unknown(0))))
}

/// The bytes with one that is no mark before an entry.
pub fn marked(rng: &mut Rng, mut bytes: Vec<u8>) -> Damaged {
    let at = rng.pick(&entries(&bytes).0).at;
    bytes.insert(at, unknown(rng));
    Some((bytes, Some(Finding::Unknown(at))))
}

pub fn mark_between(rng: &mut Rng, turns: &[Turn]) -> Damaged {
    marked(rng, bytes_of(turns))
}

pub fn mark_behind_wrong(rng: &mut Rng, turns: &[Turn]) -> Damaged {
    let (wrong, _) = connection_changed(rng, &turns[..turns.len().div_ceil(2)])?;
    let begin = wrong.len();
    let behind = &turns[turns.len().div_ceil(2)..];
    let (bytes, known) = marked(rng, bytes_of(behind)).filter(|_| !behind.is_empty())?;
    let known = known.map(|found| match found {
        Finding::Unknown(at) => Finding::Unknown(begin + at),
        other => other,
    });
    Some(([wrong, bytes].concat(), known))
}

pub fn mark_last(rng: &mut Rng, turns: &[Turn]) -> Damaged {
    let mut bytes = bytes_of(turns);
    if rng.chance(50) {
        bytes = connection_changed(rng, turns)?.0;
    }
    let at = bytes.len();
    bytes.push(unknown(rng));
    Some((bytes, Some(Finding::Unknown(at))))
}

pub fn mark_in_cut(rng: &mut Rng, turns: &[Turn]) -> Damaged {
    let mut bytes = bytes_of(turns);
    bytes.push(rng.pick(&[0x4D, 0x54, 0x52]));
    for _ in 0..rng.between(1, 8) {
        bytes.push(unknown(rng));
    }
    Some((bytes, Some(Finding::None)))
}

/// A message call with an oversize header, and what it is refused with behind these calls.
pub fn oversize(rng: &mut Rng, turns: &[Turn]) -> Turn {
    let conn = rng.pick(&[0, 1, 2, 3, 4, 255]);
    let size = rng.pick(&[4_089, 4_090, 0x8000, 0xFFFF]) as u16;
    let [high, low] = size.to_be_bytes();
    let call = vec![0x4D, conn, 0, rng.pick(&[1, 7]), high, low, 0xFF, 0xFF, 0xFF, 0xFF];
    let mut open = false;
    for turn in turns.iter().filter(|t| t.call[1] == conn && !refused(t)) {
        match turn.call[0] {
            0x4F => open = true,
            0x43 => open = false,
            _ => {}
        }
    }
    let number = match (conn, open) {
        (4.., _) => 1,
        (_, false) => 7,
        (_, true) => 4,
    };
    Turn { call, records: vec![vec![0x45, number]] }
}

pub fn oversize_call(rng: &mut Rng, turns: &[Turn]) -> Damaged {
    let mut turns = turns.to_vec();
    for _ in 0..rng.between(1, 3) {
        let at = rng.below(turns.len() as u64 + 1) as usize;
        turns.insert(at, oversize(rng, &turns[..at]));
    }
    if rng.chance(50) {
        let (bytes, _) = dropped(rng, &turns)?;
        return Some((bytes, None));
    }
    Some((bytes_of(&turns), Some(Finding::None)))
}

pub fn oversize_wrong(rng: &mut Rng, turns: &[Turn]) -> Damaged {
    let mut turns = turns.to_vec();
    let at = rng.below(turns.len() as u64 + 1) as usize;
    turns.insert(at, oversize(rng, &turns[..at]));
    let number = turns[at].records[0][1];
    let other = [vec![], vec![vec![0x45, number ^ 5]], vec![vec![0x45, 5]]];
    with(&turns, at, rng.pick(&other))
}

pub fn oversize_header(rng: &mut Rng) -> Vec<u8> {
    let size = rng.pick(&[4_089, 4_090, 0x8000, 0xFFFF]) as u16;
    let [high, low] = size.to_be_bytes();
    vec![0x52, rng.below(4) as u8, 0, 8, high, low, 0, 100, 0xFF, 0xFF]
}

pub fn oversize_record(rng: &mut Rng, turns: &[Turn]) -> Damaged {
    let at = rng.below(turns.len() as u64) as usize;
    let mut records = turns[at].records.clone();
    let which = rng.below(records.len() as u64 + 1) as usize;
    records.insert(which, oversize_header(rng));
    with(turns, at, records)
}

/// Behind such a header stand bytes that are entries, or are not.
pub fn oversize_bytes(rng: &mut Rng, turns: &[Turn]) -> Damaged {
    let at = rng.below(turns.len() as u64) as usize;
    let (before, behind) = (bytes_of(&turns[..=at]), bytes_of(&turns[at + 1..]));
    let filling = match rng.below(3) {
        0 => vec![0x4F; 4_089],
        1 => vec![0; 4_089],
        _ => vec![0x45; 4_090],
    };
    let mut bytes = [before, oversize_header(rng), filling, behind].concat();
    bytes.truncate(LONGEST);
    Some((bytes, None))
}

/// Entries of drawn bytes.
pub fn drawn(rng: &mut Rng, _: &[Turn]) -> Damaged {
    let mut bytes = Vec::new();
    for _ in 0..rng.below(40) {
        let mark = rng.pick(&[0x4F, 0x43, 0x54, 0x4D, 0x45, 0x52]);
        bytes.extend([mark, rng.below(5) as u8]);
        match mark {
            0x54 => bytes.extend([0, 0, 0, rng.below(9) as u8, 0, rng.below(20) as u8, 0, 0]),
            0x4D | 0x52 => {
                let size = rng.pick(&[0, 0, 4, 4, 8, 13]);
                bytes.extend([0, rng.below(16) as u8, 0, size, 0, 100, 0xFF, 0xFF]);
                bytes.extend((0..size).map(|_| rng.below(3) as u8));
            }
            _ => {}
        }
    }
    Some((bytes, None))
}
