//! Bench recordings (02, CR 14) made.

use crate::people::card;
use crate::people::scenario::Step;
pub use rules::recording::{entries, first, is_call, End, Entry, First};

/// A recording of the card program on this input: each call that it makes and then its output.
pub fn recorded(input: &[u8]) -> Vec<u8> {
    let run = card::run(input);
    let each = |done: &card::Done| [card::input_bytes(&done.call), done.output.clone()].concat();
    run.calls.iter().flat_map(each).collect()
}

/// A scenario's calls, each with the records that stand behind it.
pub fn of_steps(steps: &[Step]) -> Vec<u8> {
    let each = |step: &Step| [&step.input[..], &step.expected].concat();
    steps.iter().flat_map(each).collect()
}
