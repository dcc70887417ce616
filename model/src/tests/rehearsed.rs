//! Runs from 01's rehearsed situation on, by a table: what each shows, its calls, and the records they must write.

use super::rehearsed;

#[test]
fn each_run_writes_its_records() {
    for (shows, text) in RUNS {
        println!("{shows}");
        rehearsed(text);
    }
    assert_eq!(RUNS.len(), 11);
}

const RUNS: &[(&str, &str)] = &[
    (
        "P1 and P2 three seconds",
        "> splice 0 id=1 at=1002.999999 duration=1
         < 0 Splice_Response 112 id=1
         > splice 0 id=1 at=1003 duration=1
         < 0 Splice_Response 100 id=1",
    ),
    (
        "P7 a higher request evicts and P8 an equal one is refused",
        "> splice 0 id=1 at=1010 duration=1 access=3
         < 0 Splice_Response 100 id=1
         > splice 0 id=2 at=1010 duration=1 access=3
         < 0 Splice_Response 109 id=2
         > splice 0 id=3 at=1010 duration=1 access=5
         < 0 Splice_Response 109 id=1
         < 0 Splice_Response 100 id=3",
    ),
    (
        "an equal request with the flag evicts",
        "> splice 0 id=1 at=1010 duration=90000 access=3 override=1
         < 0 Splice_Response 100 id=1
         > splice 0 id=2 prior=1 duration=90000
         < 0 Splice_Response 100 id=2
         > splice 0 id=3 at=1010 duration=90000 access=3
         < 0 Splice_Response 109 id=3
         > splice 0 id=3 at=1010 duration=90000 access=3 override=1
         < 0 Splice_Response 109 id=1
         < 0 Splice_Response 109 id=2
         < 0 Splice_Response 100 id=3
         > splice 0 id=4 at=1010 duration=90000 access=2 override=1
         < 0 Splice_Response 109 id=4",
    ),
    (
        "linked sessions play back to back",
        "> splice 0 id=1 at=1003 duration=1
         < 0 Splice_Response 100 id=1
         > splice 0 id=2 prior=1 duration=2
         < 0 Splice_Response 100 id=2
         > tick 1003.000033
         < 0 SpliceComplete_Response 100 id=1 flag=0 played=0
         < 0 SpliceComplete_Response 100 id=1 flag=1 played=1
         < 0 SpliceComplete_Response 100 id=2 flag=0 played=0
         > alive 0
         < 0 Alive_Response 100 state=2 id=2 time=1003.000033
         > tick 1003.000034
         < 0 SpliceComplete_Response 100 id=2 flag=1 played=2
         > alive 0
         < 0 Alive_Response 100 state=1 id=0xFFFFFFFF time=1003.000034",
    ),
    // 1 (access 2) is covered by 2 (access 5), which is covered by 3 (access 9). 2 and 3 end
    // at 1,010 s, where 4 (access 3, override) starts and covers the 1 that is on air again.
    (
        "ends come before the start and the highest first",
        "> splice 0 id=1 at=1003 duration=1800000 access=2
         < 0 Splice_Response 100 id=1
         > splice 0 id=2 at=1004 duration=540000 access=5 override=1
         < 0 Splice_Response 100 id=2
         > splice 0 id=3 at=1006 duration=360000 access=9 override=1
         < 0 Splice_Response 100 id=3
         > splice 0 id=4 at=1010 duration=90000 access=3 override=1
         < 0 Splice_Response 100 id=4
         > tick 1023
         < 0 SpliceComplete_Response 100 id=1 flag=0 played=0
         < 0 SpliceComplete_Response 100 id=2 flag=0 played=0
         < 0 SpliceComplete_Response 100 id=3 flag=0 played=0
         < 0 SpliceComplete_Response 100 id=3 flag=1 played=360000
         < 0 SpliceComplete_Response 125 id=2 flag=1 played=180000
         < 0 SpliceComplete_Response 100 id=4 flag=0 played=0
         < 0 SpliceComplete_Response 100 id=4 flag=1 played=90000
         < 0 SpliceComplete_Response 100 id=1 flag=1 played=1170000",
    ),
    (
        "an eviction ends the followers of another connection",
        "> open 1
         > init 1
         < 1 Init_Response 100
         > splice 1 id=1 at=1010 duration=90000 access=3
         < 1 Splice_Response 100 id=1
         > splice 1 id=2 prior=1 duration=90000
         < 1 Splice_Response 100 id=2
         > splice 1 id=3 prior=2 duration=90000
         < 1 Splice_Response 100 id=3
         > splice 0 id=1 at=1010 duration=90000 access=4
         < 1 Splice_Response 109 id=1
         < 1 Splice_Response 109 id=2
         < 1 Splice_Response 109 id=3
         < 0 Splice_Response 100 id=1",
    ),
    (
        "a failed start ends its followers",
        "> splice 0 id=1 at=1003 duration=900000 access=4
         < 0 Splice_Response 100 id=1
         > splice 0 id=2 at=1005 duration=90000 access=4
         < 0 Splice_Response 100 id=2
         > splice 0 id=3 prior=2 duration=90000 access=9 override=1
         < 0 Splice_Response 100 id=3
         > tick 1006
         < 0 SpliceComplete_Response 100 id=1 flag=0 played=0
         < 0 SpliceComplete_Response 109 id=2 flag=0 played=0
         < 0 Splice_Response 109 id=3
         > tick 1020
         < 0 SpliceComplete_Response 100 id=1 flag=1 played=900000",
    ),
    // 2 was linked to the first 1 and is on air; 3 waits behind 2. The number 1 then has a new
    // holder, and aborting that one leaves 2 and 3 alone.
    (
        "a started priorsession no longer counts",
        "> splice 0 id=1 at=1003 duration=90000
         < 0 Splice_Response 100 id=1
         > splice 0 id=2 prior=1 duration=900000
         < 0 Splice_Response 100 id=2
         > splice 0 id=3 prior=2 duration=90000
         < 0 Splice_Response 100 id=3
         > tick 1005
         < 0 SpliceComplete_Response 100 id=1 flag=0 played=0
         < 0 SpliceComplete_Response 100 id=1 flag=1 played=90000
         < 0 SpliceComplete_Response 100 id=2 flag=0 played=0
         > splice 0 id=1 at=1030 duration=90000
         < 0 Splice_Response 100 id=1
         > abort 0 id=1
         < 0 Abort_Response 100 id=1
         < 0 Splice_Response 116 id=1
         > tick 1015
         < 0 SpliceComplete_Response 100 id=2 flag=1 played=900000
         < 0 SpliceComplete_Response 100 id=3 flag=0 played=0
         < 0 SpliceComplete_Response 100 id=3 flag=1 played=90000",
    ),
    (
        "a covered session aborted gives a splice response",
        "> splice 0 id=1 at=1003 duration=900000 access=4
         < 0 Splice_Response 100 id=1
         > splice 0 id=2 at=1004 duration=900000 access=5 override=1
         < 0 Splice_Response 100 id=2
         > splice 0 id=3 prior=1 duration=90000
         < 0 Splice_Response 100 id=3
         > tick 1005
         < 0 SpliceComplete_Response 100 id=1 flag=0 played=0
         < 0 SpliceComplete_Response 100 id=2 flag=0 played=0
         > abort 0 id=1
         < 0 Abort_Response 100 id=1
         < 0 Splice_Response 116 id=1
         < 0 Splice_Response 116 id=3
         > tick 1014
         < 0 SpliceComplete_Response 100 id=2 flag=1 played=900000",
    ),
    (
        "the order of splice answers",
        "> splice 0 id=0xFFFFFFFF at=1 duration=1 service=0xFFFF
         < 0 General_Response 123
         > splice 0 id=0xFFFFFFFF at=1 duration=1 pcr=1
         < 0 Splice_Response 121 id=0xFFFFFFFF
         > splice 0 id=1 at=1 duration=1 pcr=1 stream=1:2:3:4:5:6:7
         < 0 Splice_Response 112 id=1
         > splice 0 id=0xFFFFFFFF at=1 duration=1
         < 0 Splice_Response 121 id=0xFFFFFFFF
         > splice 0 id=1 prior=1 duration=1
         < 0 Splice_Response 121 id=1
         > splice 0 id=1 at=1 duration=1
         < 0 Splice_Response 112 id=1
         > splice 0 id=1 at=1003 duration=1 access=5
         < 0 Splice_Response 100 id=1
         > splice 0 id=1 at=1 duration=1
         < 0 Splice_Response 121 id=1
         > tick 1001
         > splice 0 id=2 at=1003 duration=1
         < 0 Splice_Response 112 id=2
         > splice 0 id=2 prior=1 duration=1
         < 0 Splice_Response 100 id=2",
    ),
    // 1 (access 2) asks for 7, 2 (access 5) for 3, 3 (access 5, equal) for nothing.
    (
        "the value on air follows who is on air",
        "> mux 5
         > splice 0 id=1 at=1003 duration=1800000 access=2 desc=0205534150490902055341504907
         < 0 Splice_Response 100 id=1
         > mux 5
         > splice 0 id=2 at=1004 duration=900000 access=5 override=1 desc=02055341504903
         < 0 Splice_Response 100 id=2
         > splice 0 id=3 at=1005 duration=90000 access=5 override=1
         < 0 Splice_Response 100 id=3
         > splice 0 id=4 at=1010 duration=90000 desc=0205534150490B
         < 0 General_Response 123
         > tick 1003
         < 0 SpliceComplete_Response 100 id=1 flag=0 played=0
         > mux 7
         > tick 1004
         < 0 SpliceComplete_Response 100 id=2 flag=0 played=0
         > mux 3
         > tick 1005
         < 0 SpliceComplete_Response 125 id=2 flag=1 played=90000
         < 0 SpliceComplete_Response 100 id=3 flag=0 played=0
         > mux 5
         > tick 1006
         < 0 SpliceComplete_Response 100 id=3 flag=1 played=90000
         > mux 7
         > tick 1005
         < refused 3
         > mux 7
         > abort 0 id=1
         < 0 Abort_Response 100 id=1
         < 0 SpliceComplete_Response 116 id=1 flag=1 played=90000
         > mux 5",
    ),
];

#[test]
fn and_of_more_runs() {
    for (shows, text) in MORE_RUNS {
        println!("{shows}");
        rehearsed(text);
    }
    assert_eq!(MORE_RUNS.len(), 7);
}

const MORE_RUNS: &[(&str, &str)] = &[
    (
        "P9 the end: 1,003 s and 30 s, in ninths",
        "+ splice 0 id=1 at=1003 duration=2700000 access=4
         > sessions waiting:0:1:0xFFFFFFFF:0xFFFFFFFF:4:0:5:9027000000:9297000000:0
         > tick 1032.999999
         < 0 SpliceComplete_Response 100 id=1 flag=0 played=0
         > tick 1033
         < 0 SpliceComplete_Response 100 id=1 flag=1 played=2700000",
    ),
    (
        "P10 an abort at 1,013 s",
        "+ splice 0 id=1 at=1003 duration=2700000
         > tick 1013
         < 0 SpliceComplete_Response 100 id=1 flag=0 played=0
         > abort 0 id=1
         < 0 Abort_Response 100 id=1
         < 0 SpliceComplete_Response 116 id=1 flag=1 played=900000",
    ),
    (
        "P11 an abort behind eleven microseconds",
        "+ splice 0 id=1 at=1003 duration=90000
         > tick 1003.000011
         < 0 SpliceComplete_Response 100 id=1 flag=0 played=0
         > abort 0 id=1
         < 0 Abort_Response 100 id=1
         < 0 SpliceComplete_Response 116 id=1 flag=1 played=0",
    ),
    (
        "P11 and behind twelve",
        "+ splice 0 id=1 at=1003 duration=90000
         > tick 1003.000012
         < 0 SpliceComplete_Response 100 id=1 flag=0 played=0
         > abort 0 id=1
         < 0 Abort_Response 100 id=1
         < 0 SpliceComplete_Response 116 id=1 flag=1 played=1",
    ),
    (
        "an equal start ends the one on air and its followers: 1 is covered by 2 from 1,004 s on; 5 ends 2 at 1,006 s",
        "+ splice 0 id=1 at=1003 duration=900000 access=3
         + splice 0 id=2 at=1004 duration=900000 access=6 override=1
         + splice 0 id=3 prior=2 duration=90000
         + splice 0 id=4 prior=3 duration=90000
         + splice 0 id=5 at=1006 duration=90000 access=6 override=1
         > tick 1006
         < 0 SpliceComplete_Response 100 id=1 flag=0 played=0
         < 0 SpliceComplete_Response 100 id=2 flag=0 played=0
         < 0 SpliceComplete_Response 125 id=2 flag=1 played=180000
         < 0 Splice_Response 125 id=3
         < 0 Splice_Response 125 id=4
         < 0 SpliceComplete_Response 100 id=5 flag=0 played=0
         > tick 1007
         < 0 SpliceComplete_Response 100 id=5 flag=1 played=90000
         > alive 0
         < 0 Alive_Response 100 state=2 id=1 time=1007.000000
         > sessions air:0:1:0xFFFFFFFF:0xFFFFFFFF:3:0:5:9027000000:9117000000:9000000",
    ),
    (
        "three linked sessions, the first aborted: all three end",
        "+ splice 0 id=1 at=1010 duration=90000
         + splice 0 id=2 prior=1 duration=90000
         + splice 0 id=3 prior=2 duration=90000
         > abort 0 id=1
         < 0 Abort_Response 100 id=1
         < 0 Splice_Response 116 id=1
         < 0 Splice_Response 116 id=2
         < 0 Splice_Response 116 id=3
         > abort 0 id=3
         < 0 Abort_Response 121 id=3
         > sessions",
    ),
    (
        "close ends the started from the highest down, then the waiting by start",
        "+ open 1
         + splice 0 id=1 at=1003 duration=1800000 access=1
         + splice 1 id=1 at=1004 duration=1800000 access=2 override=1
         + splice 0 id=2 at=1005 duration=1800000 access=3 override=1
         + splice 0 id=9 prior=1 duration=90000
         + splice 0 id=8 prior=9 duration=90000
         + splice 0 id=7 at=1020 duration=90000
         > tick 1006
         < 0 SpliceComplete_Response 100 id=1 flag=0 played=0
         < 1 SpliceComplete_Response 100 id=1 flag=0 played=0
         < 0 SpliceComplete_Response 100 id=2 flag=0 played=0
         > close 0
         < 0 SpliceComplete_Response 116 id=2 flag=1 played=90000
         < 0 Splice_Response 116 id=1
         < 0 Splice_Response 116 id=7
         < 0 Splice_Response 116 id=9
         < 0 Splice_Response 116 id=8
         > alive 1
         < 1 Alive_Response 100 state=2 id=1 time=1006.000000
         > tick 1024
         < 1 SpliceComplete_Response 100 id=1 flag=1 played=1710000
         > open 0
         > alive 0
         < 0 General_Response 103",
    ),
];
