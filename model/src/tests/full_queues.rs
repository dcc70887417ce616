//! Requests that find a place of a queue, and those that find none, by a table.

use super::{rehearsed, waiting};

/// What each shows, how many wait on each connection, the calls of connection 0 and their answers, and how many wait then.
const QUEUES: &[(&str, [u32; 4], &str, [usize; 4])] = &[
    ("P3 a reserved place", [9, 20, 20, 14], "+ splice 0 id=50 at=1003 duration=1", [10, 20, 20, 14]),
    (
        "P4 full by the sum",
        [10, 20, 20, 14],
        "> splice 0 id=50 at=1003 duration=1\n< 0 Splice_Response 114 id=50",
        [10, 20, 20, 14],
    ),
    (
        "P5 the twentieth and P6 the twenty-first",
        [19, 0, 0, 0],
        "+ splice 0 id=50 at=1003 duration=1\n> splice 0 id=51 at=1004 duration=1\n< 0 Splice_Response 114 id=51",
        [20, 0, 0, 0],
    ),
    (
        "a full queue is counted before the eviction",
        [20, 0, 0, 0],
        "> splice 0 id=50 at=2001 duration=1 access=9\n< 0 Splice_Response 114 id=50",
        [20, 0, 0, 0],
    ),
];

#[test]
fn full_queues() {
    for (shows, counts, text, then) in QUEUES {
        let splicer = rehearsed(&format!("{}{text}", waiting(*counts)));
        assert_eq!(splicer.waiting_counts(), *then, "{shows}");
    }
}
