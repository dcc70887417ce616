//! A scenario's calls as a recording of a whole driver: cues and a rolling card's calls have further marks.

use crate::people::scenario::Step;
use crate::referee::player::{cue_bytes, rolling_bytes};

/// The entry of a call; none of a line that reads.
fn entry(step: &Step) -> Vec<u8> {
    match (&step.rolling, &step.cue) {
        (Some(call), _) => rolling_bytes(call),
        (_, Some(given)) => cue_bytes(given),
        _ => step.input.clone(),
    }
}

/// Each call with the records that stand behind it.
pub fn of_steps(steps: &[Step]) -> Vec<u8> {
    steps.iter().flat_map(|step| [entry(step), step.expected.clone()].concat()).collect()
}
