//! Bench recordings (02, CR 14): the core's checker and the second program's, held to one another and to what
//! a recording's damage alone says.

use model::hold::check_mistakes::{checked, LAPSES};
use model::hold::recorded_streams::{of_stream, Made, Tally};
use model::people::check;
use model::people::record_lines::Line;
use splicer::bench::{check, Finding};

/// A mistake must be noticed within this many streams' recordings.
const FOR_A_LAPSE: u64 = 10;

/// The core's finding in the second program's words.
fn found(recording: &[u8]) -> check::Finding {
    match check(recording) {
        Finding::Longer => check::Finding::Longer,
        Finding::Unknown(at) => check::Finding::Unknown(at),
        Finding::Differs(call) => check::Finding::Call(call),
        Finding::None => check::Finding::None,
    }
}

/// What differs: the core's finding, the second program's, what the damage says, and a second look.
fn wrong(made: &Made) -> Option<String> {
    let kept = made.bytes.clone();
    let core = found(&made.bytes);
    let own = check::check(&made.bytes);
    let known = made.known.unwrap_or(own);
    if core != own || core != known {
        let (core, own, known) = (core.line(), own.line(), known.line());
        return Some(format!("core {core}, second program {own}, by its damage {known}"));
    }
    if kept != made.bytes || found(&kept) != core {
        return Some("the recording or a second finding changed".to_string());
    }
    None
}

/// The recordings of N streams through both, then every mistake of a checker.
pub fn everything(seed: u64, n: u64) -> Vec<bool> {
    let mut results = vec![compared(seed, n)];
    let list: Vec<Made> = (0..FOR_A_LAPSE).flat_map(|index| of_stream(seed, index)).collect();
    let core: Vec<check::Finding> = list.iter().map(|made| found(&made.bytes)).collect();
    for (lapse, text) in LAPSES {
        let differs = |at: &usize| checked(&list[*at].bytes, Some(*lapse)).0 != core[*at];
        let noticed = (0..list.len()).find(differs);
        match noticed {
            Some(at) => println!("noticed in recording {at}, {}: {lapse:?}: {text}", list[at].kind),
            None => println!("NOT NOTICED: {lapse:?}: {text}"),
        }
        results.push(noticed.is_some());
    }
    results
}

fn compared(seed: u64, n: u64) -> bool {
    let (mut tally, mut recordings, mut bytes, mut differ) = (Tally::default(), 0, 0, 0);
    for index in 0..n {
        for made in of_stream(seed, index) {
            recordings += 1;
            bytes += made.bytes.len();
            tally.count(&made);
            if let Some(text) = wrong(&made) {
                differ += 1;
                if differ <= 3 {
                    println!("seed {seed}, recording of stream {index}, {}: {text}", made.kind);
                }
            }
        }
    }
    let reached = tally.reached(false, n >= 20);
    println!("beside: seed {seed}, {recordings} recordings, {bytes} bytes, {differ} differ");
    differ == 0 && reached
}
