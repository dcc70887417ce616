//! Runs of the card program with a fault, or with the branches counted.

use crate::hold::faults::{rules_of, Fault};
use crate::hold::watch::{self, Watch, Watcher};
use crate::people::card::{channel_name, run_by, stop_line, Run, Stop};

/// By the right rules, or with a fault.
pub fn by(input: &[u8], fault: Option<Fault>) -> Run {
    run_by(input, rules_of(fault))
}

/// By the right rules, and the branches taken.
pub fn counted(input: &[u8]) -> (Run, Watch) {
    let mut watcher = Watcher::new();
    let run = watcher.during(|| {
        watch::fresh(&channel_name());
        let run = run_by(input, &watch::SEEN);
        watch::stopped(stop_line(run.stop));
        if let (Stop::TooLarge, Some(last)) = (run.stop, run.calls.last()) {
            watch::stopped(match last.output[..] {
                [0x45, 1] => "card stops at a MessageSize above 4,088 with refusal 1",
                [0x45, 7] => "card stops at a MessageSize above 4,088 with refusal 7",
                _ => "card stops at a MessageSize above 4,088 with refusal 4",
            });
        }
        run
    });
    (run, watcher.seen())
}
