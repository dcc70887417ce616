//! Damage of a recording's calls and records.

use super::turns::{answered, bytes_of, place, refused, some_record, with, Damaged, Turn};
use crate::gen::draw::Rng;
use crate::people::check::Finding;

pub fn byte_changed(rng: &mut Rng, turns: &[Turn]) -> Damaged {
    let (at, mut records, which) = some_record(rng, turns, |t| !t.records.is_empty())?;
    let byte = rng.below(records[which].len() as u64) as usize;
    records[which][byte] ^= rng.between(1, 255) as u8;
    let (bytes, known) = with(turns, at, records)?;
    // a changed mark or MessageSize moves the entries behind it
    Some((bytes, known.filter(|_| !matches!(byte, 0 | 4 | 5))))
}

pub fn connection_changed(rng: &mut Rng, turns: &[Turn]) -> Damaged {
    let at = place(rng, turns, answered)?;
    connection_of(rng, turns, at)
}

/// The connection of a record of this call is changed.
pub fn connection_of(rng: &mut Rng, turns: &[Turn], at: usize) -> Damaged {
    let mut records = turns[at].records.clone();
    let which = rng.below(records.len() as u64) as usize;
    records[which][1] ^= rng.between(1, 3) as u8;
    with(turns, at, records)
}

pub fn size_changed(rng: &mut Rng, turns: &[Turn]) -> Damaged {
    let (at, mut records, which) = some_record(rng, turns, answered)?;
    let size = rng.pick(&[0, 1, 4, 13, 16, 34, 255, 256, 4_088, 4_089, 0xFFFF]);
    records[which][4..6].copy_from_slice(&(size as u16).to_be_bytes());
    let (bytes, _) = with(turns, at, records)?;
    Some((bytes, None))
}

pub fn dropped(rng: &mut Rng, turns: &[Turn]) -> Damaged {
    let (at, mut records, which) = some_record(rng, turns, |t| !t.records.is_empty())?;
    records.remove(which);
    with(turns, at, records)
}

pub fn doubled(rng: &mut Rng, turns: &[Turn]) -> Damaged {
    let (at, mut records, which) = some_record(rng, turns, |t| !t.records.is_empty())?;
    records.insert(which, records[which].clone());
    with(turns, at, records)
}

pub fn exchanged(rng: &mut Rng, turns: &[Turn]) -> Damaged {
    let at = place(rng, turns, |t| t.records.len() > 1)?;
    let mut records = turns[at].records.clone();
    let which = rng.below(records.len() as u64 - 1) as usize;
    records.swap(which, which + 1);
    with(turns, at, records)
}

pub fn moved_before(rng: &mut Rng, turns: &[Turn]) -> Damaged {
    let at = place(rng, turns, |t| !t.records.is_empty())?;
    let mut turns = turns.to_vec();
    let record = turns[at].records.remove(0);
    if at == 0 {
        let bytes = [record, bytes_of(&turns)].concat();
        return Some((bytes, Some(Finding::Call(0))));
    }
    turns[at - 1].records.push(record);
    Some((bytes_of(&turns), Some(Finding::Call(at))))
}

pub fn moved_behind(rng: &mut Rng, turns: &[Turn]) -> Damaged {
    let at = place(rng, &turns[..turns.len() - 1], |t| !t.records.is_empty())?;
    let mut turns = turns.to_vec();
    let record = turns[at].records.pop()?;
    turns[at + 1].records.insert(0, record);
    Some((bytes_of(&turns), Some(Finding::Call(at + 1))))
}

/// A refused call of these, or one put among them, and its place.
pub fn with_refused(rng: &mut Rng, turns: &[Turn]) -> (Vec<Turn>, usize) {
    if let Some(at) = place(rng, turns, refused) {
        return (turns.to_vec(), at);
    }
    let tick = vec![0x54, 0, 0xFF, 0xFF, 0xFF, 0xFF, 0, 0x0F, 0x42, 0x40];
    let calls = [(vec![0x4F, 9], 1), (vec![0x43, 255], 1), (tick, 8)];
    let (call, number) = rng.pick(&calls);
    let mut turns = turns.to_vec();
    let at = rng.below(turns.len() as u64 + 1) as usize;
    let records = vec![vec![0x45, number]];
    turns.insert(at, Turn { call, records });
    (turns, at)
}

pub fn house_number(rng: &mut Rng, turns: &[Turn]) -> Damaged {
    let (turns, at) = with_refused(rng, turns);
    let number = turns[at].records[0][1];
    let other = rng.pick(&[1, 2, 3, 4, 5, 6, 7, 8, 9, 12, 0, 255]);
    let other = if other == number { number + 1 } else { other };
    with(&turns, at, vec![vec![0x45, other]])
}

pub fn refused_instead(rng: &mut Rng, turns: &[Turn]) -> Damaged {
    let at = place(rng, turns, answered)?;
    with(turns, at, vec![vec![0x45, rng.between(1, 9) as u8]])
}

pub fn refused_idle(rng: &mut Rng, turns: &[Turn]) -> Damaged {
    let at = place(rng, turns, |t| t.records.is_empty())?;
    with(turns, at, vec![vec![0x45, rng.between(1, 9) as u8]])
}

pub fn record_instead(rng: &mut Rng, turns: &[Turn]) -> Damaged {
    let (turns, at) = with_refused(rng, turns);
    let general = vec![0x52, 0, 0, 0, 0, 0, 0, 123, 0xFF, 0xFF];
    with(&turns, at, vec![general])
}

pub fn call_dropped(rng: &mut Rng, turns: &[Turn]) -> Damaged {
    let at = place(rng, turns, |t| !t.records.is_empty())?;
    let mut turns = turns.to_vec();
    // the call before it has all of its own already
    let left = turns.remove(at).records;
    if at == 0 {
        let bytes = [left.concat(), bytes_of(&turns)].concat();
        return Some((bytes, Some(Finding::Call(0))));
    }
    turns[at - 1].records.extend(left);
    Some((bytes_of(&turns), Some(Finding::Call(at))))
}

pub fn turn_dropped(rng: &mut Rng, turns: &[Turn]) -> Damaged {
    let mut turns = turns.to_vec();
    turns.remove(rng.below(turns.len() as u64) as usize);
    Some((bytes_of(&turns), None))
}

pub fn call_doubled(rng: &mut Rng, turns: &[Turn]) -> Damaged {
    let at = rng.below(turns.len() as u64) as usize;
    let mut turns = turns.to_vec();
    turns.insert(at, turns[at].clone());
    Some((bytes_of(&turns), None))
}

pub fn before_any(rng: &mut Rng, turns: &[Turn]) -> Damaged {
    let general = vec![0x52, 0, 0, 0, 0, 0, 0, 103, 0xFF, 0xFF];
    let bytes = [rng.pick(&[vec![0x45, 7], general]), bytes_of(turns)].concat();
    Some((bytes, Some(Finding::Call(0))))
}
