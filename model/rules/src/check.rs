//! The checker of 02, CR 14: it "names the first call whose records aren't those that the rules give, or says that there is none".

use crate::card;
use crate::recording::{entries, is_call, End, Entry};
use crate::state::Splicer;

/// "It reads up to 65,536 bytes."
pub const LONGEST: usize = 65_536;

#[derive(Clone, Copy, Debug, PartialEq, Eq)]
pub enum Finding {
    None,
    /// The first call whose records are not the due ones, counted from 1; 0 is before any call.
    Call(usize),
    /// "14 for an unknown mark anywhere, with its place", counted from 0.
    Unknown(usize),
    /// "house number 15 for a longer recording"
    Longer,
}

/// A call of a recording, what was found behind it and what was due.
pub struct Judged<'r> {
    pub at: usize,
    /// The call's entry; "Records before any call are call 0's".
    pub call: Option<&'r [u8]>,
    pub found: Vec<&'r [u8]>,
    pub due: Vec<Vec<u8>>,
    /// The clock when the call was made, in ninths.
    pub clock: u64,
}

/// What the checker says of a recording.
pub fn check(recording: &[u8]) -> Finding {
    checked(recording).0
}

/// The same, and the calls that it was found from. "house number 15 for a longer recording; then 14 for an unknown mark
/// anywhere, with its place; both before any finding".
pub fn checked(recording: &[u8]) -> (Finding, Vec<Judged<'_>>) {
    if recording.len() > LONGEST {
        return (Finding::Longer, Vec::new());
    }
    let (list, end) = entries(recording);
    if let End::Unknown { at } = end {
        return (Finding::Unknown(at), Vec::new());
    }
    let mut calls = by_call(&list);
    play(&mut calls);
    let cut = matches!(end, End::Cut { .. });
    let finding = first_wrong(&calls, cut).map_or(Finding::None, Finding::Call);
    (finding, calls)
}

/// The records behind each call. "Records before any call are call 0's."
pub fn by_call<'r>(list: &[Entry<'r>]) -> Vec<Judged<'r>> {
    let judged = |at: usize, call: Option<&'r [u8]>| Judged { at, call, found: Vec::new(), due: Vec::new(), clock: 0 };
    let mut calls = vec![judged(0, None)];
    for entry in list {
        match calls.last_mut() {
            Some(last) if !is_call(entry.bytes[0]) => last.found.push(entry.bytes),
            _ => calls.push(judged(entry.at, Some(entry.bytes))),
        }
    }
    calls
}

/// Makes the calls on one splicer from fresh, whatever was found: what is due of each.
pub fn play(calls: &mut [Judged]) {
    let (mut splicer, _) = Splicer::fresh(&card::channel_name());
    for judged in calls {
        if let Some(Ok((call, _))) = judged.call.map(card::next_call) {
            judged.clock = splicer.clock;
            let written = card::make(&mut splicer, &call);
            judged.due = entries(&written).0.iter().map(|entry| entry.bytes.to_vec()).collect();
        }
    }
}

/// The first call whose records are not exactly its due ones, in order. "A cut last record is
/// dropped, and the last call before it then needs only the beginning of its due records."
fn first_wrong(calls: &[Judged], cut: bool) -> Option<usize> {
    let right = |number: usize| {
        let Judged { found, due, .. } = &calls[number];
        let beginning = cut && number + 1 == calls.len() && found.len() <= due.len();
        let needed = if beginning { &due[..found.len()] } else { &due[..] };
        found == needed
    };
    (0..calls.len()).find(|number| !right(*number))
}
