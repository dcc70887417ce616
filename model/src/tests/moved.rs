//! The waiting counts (02, CR 2) and the places that an acceptance shifts (02, CR 11).

use super::{rehearsed, waiting, REHEARSED};
use crate::people::record_lines::hex;
use crate::people::scenario as format;
use crate::rules::Splicer;

/// The places moved by each call behind the rehearsed situation, 0 for calls that are refused.
fn moves(text: &str) -> Vec<usize> {
    let steps = format::parse(&format!("{REHEARSED}{text}")).unwrap();
    let (mut splicer, _) = Splicer::fresh(&crate::people::card::channel_name());
    let mut list = Vec::new();
    for step in &steps {
        let (call, _) = crate::people::card::next_call(&step.input).unwrap();
        assert_eq!(hex(&crate::people::card::make(&mut splicer, &call)), hex(&step.expected), "{}", step.text);
        list.push(splicer.moved);
    }
    assert_eq!(list[..3], [0, 0, 0]);
    list.split_off(3)
}

/// Demand 3's count of each connection after each kind of event, by hand.
const EVENTS: &[(&str, [usize; 4])] = &[
    ("> open 1\n> init 1\n< 1 Init_Response 100\n", [0, 0, 0, 0]),
    // Accepted, timed and linked.
    (
        "> splice 1 id=1 at=1010 duration=90000 access=3\n< 1 Splice_Response 100 id=1
         > splice 1 id=2 prior=1 duration=90000\n< 1 Splice_Response 100 id=2\n",
        [0, 2, 0, 0],
    ),
    // Any other code.
    ("> splice 1 id=1 at=1020 duration=1\n< 1 Splice_Response 121 id=1\n", [0, 2, 0, 0]),
    // An eviction with a follower, by another connection.
    (
        "> splice 0 id=1 at=1010 duration=900000 access=5\n< 1 Splice_Response 109 id=1
         < 1 Splice_Response 109 id=2\n< 0 Splice_Response 100 id=1\n",
        [1, 0, 0, 0],
    ),
    (
        "> splice 1 id=3 at=1012 duration=90000\n< 1 Splice_Response 100 id=3
         > splice 1 id=4 prior=3 duration=90000\n< 1 Splice_Response 100 id=4
         > splice 0 id=2 prior=1 duration=90000\n< 0 Splice_Response 100 id=2
         > splice 0 id=3 prior=2 duration=90000\n< 0 Splice_Response 100 id=3\n",
        [3, 2, 0, 0],
    ),
    // A start; a refused tick.
    (
        "> tick 1010\n< 0 SpliceComplete_Response 100 id=1 flag=0 played=0
         > tick 1009\n< refused 3\n",
        [2, 2, 0, 0],
    ),
    // A failed start and its follower.
    (
        "> tick 1012\n< 1 SpliceComplete_Response 109 id=3 flag=0 played=0
         < 1 Splice_Response 109 id=4\n",
        [2, 0, 0, 0],
    ),
    // An abort of the one on air: its followers only.
    (
        "> abort 0 id=1\n< 0 Abort_Response 100 id=1
         < 0 SpliceComplete_Response 116 id=1 flag=1 played=180000
         < 0 Splice_Response 116 id=2\n< 0 Splice_Response 116 id=3\n",
        [0, 0, 0, 0],
    ),
    (
        "> splice 0 id=1 at=1020 duration=90000\n< 0 Splice_Response 100 id=1
         > splice 1 id=1 at=1030 duration=90000\n< 1 Splice_Response 100 id=1
         > splice 1 id=2 prior=1 duration=90000\n< 1 Splice_Response 100 id=2
         > splice 1 id=3 prior=2 duration=90000\n< 1 Splice_Response 100 id=3\n",
        [1, 3, 0, 0],
    ),
    // An abort of one that waits, with its follower; a natural end; a close.
    (
        "> abort 1 id=2\n< 1 Abort_Response 100 id=2\n< 1 Splice_Response 116 id=2
         < 1 Splice_Response 116 id=3\n",
        [1, 1, 0, 0],
    ),
    (
        "> tick 1021\n< 0 SpliceComplete_Response 100 id=1 flag=0 played=0
         < 0 SpliceComplete_Response 100 id=1 flag=1 played=90000\n",
        [0, 1, 0, 0],
    ),
    ("> close 1\n< 1 Splice_Response 116 id=1\n", [0, 0, 0, 0]),
];

#[test]
fn the_waiting_counts_after_each_event() {
    let mut text = String::new();
    for (step, counts) in EVENTS {
        text += step;
        assert_eq!(rehearsed(&text).waiting_counts(), *counts, "{step}");
    }
}

#[test]
fn moved_counts_the_waiting_that_start_later() {
    let text = "> splice 0 id=1 at=1010 duration=90000
         < 0 Splice_Response 100 id=1
         > splice 0 id=2 at=1030 duration=90000
         < 0 Splice_Response 100 id=2
         > splice 0 id=3 at=1020 duration=90000
         < 0 Splice_Response 100 id=3
         > splice 0 id=4 at=1005 duration=90000
         < 0 Splice_Response 100 id=4
         > splice 0 id=5 at=1005 duration=90000
         < 0 Splice_Response 109 id=5
         > splice 0 id=6 prior=1 duration=90000
         < 0 Splice_Response 100 id=6
         > alive 0
         < 0 Alive_Response 100 state=1 id=0xFFFFFFFF time=1000.000000
         > tick 1010
         < 0 SpliceComplete_Response 100 id=4 flag=0 played=0
         < 0 SpliceComplete_Response 100 id=4 flag=1 played=90000
         < 0 SpliceComplete_Response 100 id=1 flag=0 played=0
         > splice 0 id=4 at=1015 duration=90000
         < 0 Splice_Response 100 id=4
         > open 0
         < refused 6
         > close 0
         < 0 SpliceComplete_Response 116 id=1 flag=1 played=0
         < 0 Splice_Response 116 id=6
         < 0 Splice_Response 116 id=4
         < 0 Splice_Response 116 id=3
         < 0 Splice_Response 116 id=2";
    // After the tick 6 (1,011 s), 3 (1,020 s) and 2 (1,030 s) wait; the new 4 stands before the two
    // last. 1 is on air and does not count.
    assert_eq!(moves(text), [0, 0, 1, 3, 0, 2, 0, 0, 2, 0, 0]);
}

#[test]
fn moved_is_counted_after_the_eviction() {
    let text = "> open 1
         > init 1
         < 1 Init_Response 100
         > splice 1 id=1 at=1010 duration=90000 access=3
         < 1 Splice_Response 100 id=1
         > splice 1 id=2 prior=1 duration=90000
         < 1 Splice_Response 100 id=2
         > splice 1 id=3 prior=2 duration=90000
         < 1 Splice_Response 100 id=3
         > splice 0 id=4 at=1011.500000 duration=90000
         < 0 Splice_Response 100 id=4
         > splice 0 id=5 at=1010 duration=90000 access=4
         < 1 Splice_Response 109 id=1
         < 1 Splice_Response 109 id=2
         < 1 Splice_Response 109 id=3
         < 0 Splice_Response 100 id=5";
    // Before the eviction 2, 4 and 3 would be later; after it only 4.
    assert_eq!(moves(text), [0, 0, 0, 0, 0, 1, 1]);
}

#[test]
fn at_most_63_are_moved() {
    let (mut splicer, _) = Splicer::fresh(&crate::people::card::channel_name());
    let text = format!("{REHEARSED}{}", waiting([9, 20, 20, 14]));
    let last = "> splice 0 id=50 at=1003 duration=1\n< 0 Splice_Response 100 id=50";
    for step in format::parse(&format!("{text}{last}")).unwrap() {
        let (call, _) = crate::people::card::next_call(&step.input).unwrap();
        crate::people::card::make(&mut splicer, &call);
    }
    assert_eq!(splicer.moved, 63);
}
