//! The recordings of a stream: whole, and damaged in each way.

use super::call_damage::*;
use super::mark_damage::*;
use super::turns::{base, bytes_of, turns_of, Damaged, Made, Turn};
use crate::gen::draw::Rng;
use crate::people::check::{Finding, LONGEST};
use crate::people::make_recording::{entries, is_call, recorded};
use crate::people::scenario;

type Kind = fn(&mut Rng, &[Turn]) -> Damaged;

/// Each kind of damage, its floor for 20 streams, and how it is done.
pub const KINDS: &[(&str, u64, Kind)] = &[
    ("whole", 20, whole),
    ("cut", 15, cut),
    ("cut between two due records", 10, cut_between),
    ("byte of a record changed", 15, byte_changed),
    ("record's connection changed", 15, connection_changed),
    ("record's MessageSize changed", 10, size_changed),
    ("record dropped", 15, dropped),
    ("record doubled", 15, doubled),
    ("records exchanged", 7, exchanged),
    ("record moved to the call before", 10, moved_before),
    ("record moved to the call behind", 10, moved_behind),
    ("wrong house number", 15, house_number),
    ("refusal where records are due", 10, refused_instead),
    ("refusal where nothing is due", 10, refused_idle),
    ("record where a refusal is due", 15, record_instead),
    ("call dropped, its records left", 10, call_dropped),
    ("call and its records dropped", 15, turn_dropped),
    ("call doubled", 15, call_doubled),
    ("records before the first call", 15, before_any),
    ("unknown mark at the start", 15, mark_at_start),
    ("unknown mark between entries", 15, mark_between),
    ("unknown mark behind a wrong record", 15, mark_behind_wrong),
    ("unknown mark as the last byte", 15, mark_last),
    ("unknown byte inside a cut entry", 15, mark_in_cut),
    ("oversize call and others behind it", 15, oversize_call),
    ("oversize call, wrongly answered", 15, oversize_wrong),
    ("oversize record", 15, oversize_record),
    ("oversize record, its bytes behind it", 15, oversize_bytes),
    ("two damages", 10, twice),
    ("cut behind a wrong record", 15, cut_behind_wrong),
    ("cut call behind missing records", 10, cut_call),
    ("record dropped, a later entry cut", 15, dropped_and_cut),
    ("entries of drawn bytes", 15, drawn),
];

fn twice(rng: &mut Rng, turns: &[Turn]) -> Damaged {
    let (bytes, _) = byte_changed(rng, turns)?;
    let turned = turns_of(&bytes)?;
    let kinds: [Kind; 6] = [dropped, doubled, cut, house_number, turn_dropped, before_any];
    let (bytes, _) = rng.pick(&kinds)(rng, &turned)?;
    Some((bytes, None))
}

/// A recording of exactly this many bytes: calls of the stream and, to fill it, messages on a
/// connection above 3 with their refusals.
pub fn filled(turns: &[Turn], bytes: usize) -> Vec<Turn> {
    let mut turns = turns.to_vec();
    let mut left = bytes - bytes_of(&turns).len();
    let refusal = vec![vec![0x45, 1]];
    while left > 0 {
        let call = match left {
            0..=23 => {
                // 12 bytes and MessageSize more, or opens of 4
                let size = left as u8 - 12;
                let header = [0x4D, 9, 0, 5, 0, size, 0xFF, 0xFF, 0xFF, 0xFF];
                [&header[..], &vec![0; size.into()]].concat()
            }
            _ => vec![0x4F, 9],
        };
        left -= call.len() + 2;
        let records = refusal.clone();
        turns.push(Turn { call, records });
    }
    turns
}

/// All recordings of a stream.
pub fn of_stream(seed: u64, index: u64) -> Vec<Made> {
    let mixed = Rng::new(seed ^ 0x14);
    let mut rng = Rng::new(mixed.next() ^ index.wrapping_mul(0x9E6C_63D0_876A_9A63));
    let mut list = Vec::new();
    let long = base(seed, index, usize::MAX, LONGEST - 9_000);
    let (bytes, known) = (bytes_of(&long), Some(Finding::None));
    let kind = "whole";
    list.push(Made { kind, bytes, known });
    for (kind, _, make) in KINDS {
        let calls = rng.pick(&[12, 40, 80, 150, 400]);
        let calls = rng.between(8, calls).min(long.len() as u64) as usize;
        if let Some((bytes, known)) = make(&mut rng, &long[..calls]) {
            list.push(Made { kind, bytes, known });
        }
    }
    if index.is_multiple_of(16) {
        list.extend(every_end(&short_day(&mut rng)));
    }
    if index.is_multiple_of(8) {
        list.extend(longest(&mut rng, &base(seed, index, usize::MAX, LONGEST - 40)));
    }
    if index.is_multiple_of(12) {
        let bytes = [0x4F, rng.below(5) as u8].repeat(LONGEST / 2);
        let first = [2, 1][usize::from(bytes[1] > 3)];
        let kind = "32,768 calls";
        let known = Some(Finding::Call(first));
        list.push(Made { kind, bytes, known });
    }
    list
}

/// A short day with answers of several records, an end of the one on air, and refusals.
fn short_day(rng: &mut Rng) -> Vec<Turn> {
    let (conn, time) = (rng.below(4), rng.below(1_000_000));
    let end = rng.pick(&["abort C id=7", "close C"]).to_string();
    let text = format!(
        "> open C\n> init C extra=\n> tick {time}\n> splice C id=7 at={} duration=9000\n\
         > splice C id=8 prior=7 duration=9000\n> splice C id=9 prior=8 duration=1\n\
         > tick {}\n> {end}\n> alive C\n> open C\n> tick 0\n",
        time + 3,
        time + 3
    );
    let text = text.replace(" C", &format!(" {conn}"));
    let steps = scenario::parse(&text).unwrap_or_default();
    turns_of(&recorded(&scenario::input_of(&steps))).unwrap_or_default()
}

/// Cut at every byte. At the front of a record that is due behind it, nothing is cut and it is missing.
fn every_end(turns: &[Turn]) -> Vec<Made> {
    let whole = bytes_of(turns);
    let (list, _) = entries(&whole);
    let calls = |to: usize| {
        let before = list.iter().filter(|e| e.at < to && is_call(e.bytes[0]));
        before.count()
    };
    let known = |to: usize| {
        let begins = list.iter().any(|e| e.at == to && !is_call(e.bytes[0]));
        Some(if begins { Finding::Call(calls(to)) } else { Finding::None })
    };
    let made = |to: usize| Made { kind: "every byte of a recording as its end", bytes: whole[..to].to_vec(), known: known(to) };
    (0..=whole.len()).map(made).collect()
}

/// Recordings of 65,535 to 65,537 bytes, good, wrong at their last call, or with an unknown mark.
fn longest(rng: &mut Rng, turns: &[Turn]) -> Vec<Made> {
    let mut list = Vec::new();
    let lengths = [("length 65,535", LONGEST - 1), ("length 65,536", LONGEST), ("length 65,537", LONGEST + 1)];
    for (kind, length) in lengths {
        let good = filled(turns, length);
        let longer = length > LONGEST;
        let or = |found: Finding| Some(if longer { Finding::Longer } else { found });
        let bytes = bytes_of(&good);
        let mut wrong = bytes.clone();
        wrong[length - 1] ^= 1;
        let mut mark = bytes.clone();
        let at = rng.pick(&entries(&bytes).0).at;
        mark[at] = unknown(rng);
        list.push((kind, bytes, or(Finding::None)));
        list.push((kind, wrong, or(Finding::Call(good.len()))));
        list.push((kind, mark, or(Finding::Unknown(at))));
    }
    let made = |(kind, bytes, known)| Made { kind, bytes, known };
    list.into_iter().map(made).collect()
}
