//! A recording call by call, to be damaged.

use crate::gen;
use crate::gen::draw::Rng;
use crate::people::card;
use crate::people::check::Finding;
use crate::people::make_recording::{entries, is_call};

/// A call's bytes and the records that are due behind it.
#[derive(Clone)]
pub struct Turn {
    pub call: Vec<u8>,
    pub records: Vec<Vec<u8>>,
}

/// A recording, and its finding where the damage alone gives it.
pub struct Made {
    pub kind: &'static str,
    pub bytes: Vec<u8>,
    pub known: Option<Finding>,
}

/// A recording, and its finding where that is known.
pub type Damaged = Option<(Vec<u8>, Option<Finding>)>;

/// "It reads up to 65,536 bytes": the bytes of these calls and records.
pub fn bytes_of(turns: &[Turn]) -> Vec<u8> {
    let each = |turn: &Turn| [&turn.call[..], &turn.records.concat()].concat();
    turns.iter().flat_map(each).collect()
}

pub fn length(turn: &Turn) -> usize {
    turn.call.len() + turn.records.iter().map(Vec::len).sum::<usize>()
}

/// The first calls of a generated stream, at most this many and these bytes.
pub fn base(seed: u64, index: u64, calls: usize, bytes: usize) -> Vec<Turn> {
    let run = card::run(&gen::stream(seed, index));
    let mut left = bytes;
    let mut turns = Vec::new();
    for done in run.calls.iter().take(calls) {
        let records = entries(&done.output).0;
        let turn = Turn { call: card::input_bytes(&done.call), records: records.iter().map(|e| e.bytes.to_vec()).collect() };
        if length(&turn) > left {
            break;
        }
        left -= length(&turn);
        turns.push(turn);
    }
    turns
}

/// The calls of a recording that begins with a call, with the records found behind each.
pub fn turns_of(bytes: &[u8]) -> Option<Vec<Turn>> {
    let mut turns: Vec<Turn> = Vec::new();
    for entry in entries(bytes).0 {
        if is_call(entry.bytes[0]) {
            let call = entry.bytes.to_vec();
            let records = Vec::new();
            turns.push(Turn { call, records });
        } else {
            turns.last_mut()?.records.push(entry.bytes.to_vec());
        }
    }
    Some(turns)
}

/// A call, drawn from those that fit.
pub fn place(rng: &mut Rng, turns: &[Turn], fits: impl Fn(&Turn) -> bool) -> Option<usize> {
    let list: Vec<usize> = (0..turns.len()).filter(|at| fits(&turns[*at])).collect();
    (!list.is_empty()).then(|| rng.pick(&list))
}

/// A call of those that fit, its records, and which of these is drawn.
pub fn some_record(rng: &mut Rng, turns: &[Turn], fits: impl Fn(&Turn) -> bool) -> Option<(usize, Vec<Vec<u8>>, usize)> {
    let at = place(rng, turns, fits)?;
    let records = turns[at].records.clone();
    let which = rng.below(records.len() as u64) as usize;
    Some((at, records, which))
}

pub fn answered(turn: &Turn) -> bool {
    turn.records.first().is_some_and(|r| r[0] == 0x52)
}

pub fn refused(turn: &Turn) -> bool {
    turn.records.first().is_some_and(|r| r[0] == 0x45)
}

/// The turns with this call's records in place of its own, and that call as the finding.
pub fn with(turns: &[Turn], at: usize, records: Vec<Vec<u8>>) -> Damaged {
    let mut turns = turns.to_vec();
    let differs = turns[at].records != records;
    turns[at].records = records;
    differs.then(|| (bytes_of(&turns), Some(Finding::Call(at + 1))))
}
