//! Tests of the rules. The values are written by hand from 01.

mod card;
mod check;
mod config;
mod cue;
mod descriptors;
mod full_queues;
mod lately;
mod moved;
mod places;
mod primary;
mod reading;
mod recall;
mod record_bytes;
mod recording;
mod referee;
mod rehearsed;
mod scenario;
mod sections;
mod shape;
mod sleep;
mod streams;

use crate::people::record_lines::{self as lines, hex, Item, Line, Record, What};
use crate::people::scenario as format;
use crate::rules::{ninths, Splicer, State, ROOM};

/// A scenario text: a line `+ splice C id=N ..` is an accepted request, the call and its Splice_Response 100; `+ open C` opens
/// and initialises a connection.
fn written_out(text: &str) -> String {
    let line = |line: &str| match line.trim().strip_prefix("+ ").map(|call| (call, call.split(' ').collect::<Vec<_>>())) {
        Some((call, words)) if words[0] == "splice" => format!("> {call}\n< {} Splice_Response 100 {}", words[1], words[2]),
        Some((_, words)) => format!("> open {0}\n> init {0}\n< {0} Init_Response 100", words[1]),
        None => line.trim().to_string(),
    };
    text.lines().map(line).collect::<Vec<_>>().join("\n")
}

/// Runs the calls of a scenario text and holds the output to its records.
fn hold(text: &str) -> Splicer {
    let mut steps = format::parse(&written_out(text)).unwrap();
    let run = crate::people::card::run(&format::input_of(&steps));
    assert_eq!(crate::hold::run_scenarios::read_difference(&steps, &run), None);
    steps.retain(|step| !step.is_read());
    let lines = |bytes: &[u8]| -> Vec<String> { lines::items(bytes).iter().map(Item::line).collect() };
    for (step, done) in steps.iter().zip(&run.calls) {
        assert_eq!(lines(&done.output), lines(&step.expected), "{}", step.text);
        assert_eq!(done.output, step.expected, "{}", step.text);
    }
    assert_eq!(run.calls.len(), steps.len());
    run.splicer
}

/// 01's rehearsed situations: "Clock 1,000 s, connection 0 initialised".
const REHEARSED: &str = "> open 0\n> init 0\n< 0 Init_Response 100\n> tick 1000\n";

fn rehearsed(text: &str) -> Splicer {
    hold(&format!("{REHEARSED}{text}"))
}

/// Opens connections 1 to 3 and puts this many waiting sessions on each connection.
fn waiting(counts: [u32; 4]) -> String {
    let mut text = String::new();
    for conn in 1..4 {
        text += &format!("> open {conn}\n> init {conn}\n< {conn} Init_Response 100\n");
    }
    let mut at = 2_000;
    // Connection 0 last: the others must not need its places.
    for conn in [1, 2, 3, 0] {
        for id in 1..=counts[conn] {
            at += 1;
            text += &format!("> splice {conn} id={id} at={at} duration=1\n");
            text += &format!("< {conn} Splice_Response 100 id={id}\n");
        }
    }
    text
}

#[test]
fn p3_a_reserved_place() {
    let splicer =
        rehearsed(&format!("{}> splice 0 id=50 at=1003 duration=1\n< 0 Splice_Response 100 id=50", waiting([9, 20, 20, 14])));
    assert_eq!(splicer.waiting_counts(), [10, 20, 20, 14]);
}

#[test]
fn p4_full_by_the_sum() {
    let splicer =
        rehearsed(&format!("{}> splice 0 id=50 at=1003 duration=1\n< 0 Splice_Response 114 id=50", waiting([10, 20, 20, 14])));
    assert_eq!(splicer.waiting_counts(), [10, 20, 20, 14]);
}

#[test]
fn p5_the_twentieth_and_p6_the_twenty_first() {
    rehearsed(&format!(
        "{}> splice 0 id=50 at=1003 duration=1\n< 0 Splice_Response 100 id=50
         > splice 0 id=51 at=1004 duration=1\n< 0 Splice_Response 114 id=51",
        waiting([19, 0, 0, 0])
    ));
}

#[test]
fn p9_the_end_and_p10_an_abort_at_1013() {
    let accepted = rehearsed(
        "> splice 0 id=1 at=1003 duration=2700000
         < 0 Splice_Response 100 id=1",
    );
    assert_eq!(accepted.sessions[0].end, 9_297_000_000);
    rehearsed(
        "> splice 0 id=1 at=1003 duration=2700000
         < 0 Splice_Response 100 id=1
         > tick 1013
         < 0 SpliceComplete_Response 100 id=1 flag=0 played=0
         > abort 0 id=1
         < 0 Abort_Response 100 id=1
         < 0 SpliceComplete_Response 116 id=1 flag=1 played=900000",
    );
    rehearsed(
        "> splice 0 id=1 at=1003 duration=2700000
         < 0 Splice_Response 100 id=1
         > tick 1032.999999
         < 0 SpliceComplete_Response 100 id=1 flag=0 played=0
         > tick 1033
         < 0 SpliceComplete_Response 100 id=1 flag=1 played=2700000",
    );
}

#[test]
fn p11_eleven_and_twelve_microseconds() {
    for (micros, played) in [(11, 0), (12, 1)] {
        rehearsed(&format!(
            "> splice 0 id=1 at=1003 duration=90000
             < 0 Splice_Response 100 id=1
             > tick 1003.0000{micros}
             < 0 SpliceComplete_Response 100 id=1 flag=0 played=0
             > abort 0 id=1
             < 0 Abort_Response 100 id=1
             < 0 SpliceComplete_Response 116 id=1 flag=1 played={played}"
        ));
    }
}

#[test]
fn p12_to_p14_starts_against_one_on_air() {
    // AccessType, OverridePlaying, what the start writes, who is left.
    let ended = "< 0 SpliceComplete_Response 125 id=1 flag=1 played=180000\n";
    let both = [(1, State::Covered), (2, State::OnAir)];
    let cases = [
        // P12 as 02, CR 4, has it: "on air, the old one ended"
        (4, 1, ended, 100, &both[1..]),
        (5, 0, "", 109, &[(1, State::OnAir)][..]),
        (5, 1, "", 100, &both[..]),
    ];
    for (access, overrides, before, result, left) in cases {
        let splicer = rehearsed(&format!(
            "> splice 0 id=1 at=1003 duration=900000 access=4
             < 0 Splice_Response 100 id=1
             > splice 0 id=2 at=1005 duration=90000 access={access} override={overrides}
             < 0 Splice_Response 100 id=2
             > tick 1005
             < 0 SpliceComplete_Response 100 id=1 flag=0 played=0
             {before}< 0 SpliceComplete_Response {result} id=2 flag=0 played=0"
        ));
        let states: Vec<(u32, State)> = splicer.sessions.iter().map(|s| (s.id, s.state)).collect();
        assert_eq!(states, left);
    }
}

#[test]
fn an_equal_start_ends_the_one_on_air_and_its_followers() {
    // 1 (access 3) is covered by 2 (access 6) from 1,004 s on; 5 (6) ends 2 at 1,006 s.
    let splicer = rehearsed(
        "> splice 0 id=1 at=1003 duration=900000 access=3
         < 0 Splice_Response 100 id=1
         > splice 0 id=2 at=1004 duration=900000 access=6 override=1
         < 0 Splice_Response 100 id=2
         > splice 0 id=3 prior=2 duration=90000
         < 0 Splice_Response 100 id=3
         > splice 0 id=4 prior=3 duration=90000
         < 0 Splice_Response 100 id=4
         > splice 0 id=5 at=1006 duration=90000 access=6 override=1
         < 0 Splice_Response 100 id=5
         > tick 1006
         < 0 SpliceComplete_Response 100 id=1 flag=0 played=0
         < 0 SpliceComplete_Response 100 id=2 flag=0 played=0
         < 0 SpliceComplete_Response 125 id=2 flag=1 played=180000
         < 0 Splice_Response 125 id=3
         < 0 Splice_Response 125 id=4
         < 0 SpliceComplete_Response 100 id=5 flag=0 played=0
         > tick 1007
         < 0 SpliceComplete_Response 100 id=5 flag=1 played=90000
         > alive 0
         < 0 Alive_Response 100 state=2 id=1 time=1007.000000",
    );
    assert_eq!(splicer.sessions.len(), 1);
}

#[test]
fn three_linked_sessions_the_first_aborted_all_three_end() {
    let splicer = rehearsed(
        "> splice 0 id=1 at=1010 duration=90000
         < 0 Splice_Response 100 id=1
         > splice 0 id=2 prior=1 duration=90000
         < 0 Splice_Response 100 id=2
         > splice 0 id=3 prior=2 duration=90000
         < 0 Splice_Response 100 id=3
         > abort 0 id=1
         < 0 Abort_Response 100 id=1
         < 0 Splice_Response 116 id=1
         < 0 Splice_Response 116 id=2
         < 0 Splice_Response 116 id=3
         > abort 0 id=3
         < 0 Abort_Response 121 id=3",
    );
    assert!(splicer.sessions.is_empty());
}

#[test]
fn close_ends_started_from_the_highest_then_waiting_by_start() {
    let text = "> open 1
         > init 1
         < 1 Init_Response 100
         > splice 0 id=1 at=1003 duration=1800000 access=1
         < 0 Splice_Response 100 id=1
         > splice 1 id=1 at=1004 duration=1800000 access=2 override=1
         < 1 Splice_Response 100 id=1
         > splice 0 id=2 at=1005 duration=1800000 access=3 override=1
         < 0 Splice_Response 100 id=2
         > splice 0 id=9 prior=1 duration=90000
         < 0 Splice_Response 100 id=9
         > splice 0 id=8 prior=9 duration=90000
         < 0 Splice_Response 100 id=8
         > splice 0 id=7 at=1020 duration=90000
         < 0 Splice_Response 100 id=7
         > tick 1006
         < 0 SpliceComplete_Response 100 id=1 flag=0 played=0
         < 1 SpliceComplete_Response 100 id=1 flag=0 played=0
         < 0 SpliceComplete_Response 100 id=2 flag=0 played=0
         > close 0
         < 0 SpliceComplete_Response 116 id=2 flag=1 played=90000
         < 0 Splice_Response 116 id=1
         < 0 Splice_Response 116 id=7
         < 0 Splice_Response 116 id=9
         < 0 Splice_Response 116 id=8
         > alive 1
         < 1 Alive_Response 100 state=2 id=1 time=1006.000000
         > tick 1024
         < 1 SpliceComplete_Response 100 id=1 flag=1 played=1710000
         > open 0
         > alive 0
         < 0 General_Response 103";
    rehearsed(text);
}

#[test]
fn answers_before_and_after_init() {
    hold(
        "> open 2
         > message 2 0000 0000 FFFF FFFF
         > message 2 000D 0000 FFFF FFFF
         < 2 General_Response 103
         > message 2 1234 0000 FFFF FFFF
         < 2 General_Response 103
         > config 2
         < 2 General_Response 103
         > message 2 0001 0000 FFFF FFFF
         < 2 General_Response 123
         > init 2 revision=1 name=OTHER
         < 2 Init_Response 102
         > init 2 name=CH
         < 2 Init_Response 104
         > alive 2
         < 2 General_Response 103
         > init 2 name=CH1 junk=4142434445
         < 2 Init_Response 100
         > init 2 name=\"\"
         < 2 Init_Response 104
         > message 2 0001 0000 FFFF FFFF
         < 2 General_Response 123
         > message 2 0000 0000 FFFF FFFF
         > message 2 000D 0000 FFFF FFFF
         > message 2 0010 0000 FFFF FFFF
         < 2 General_Response 120
         > config 2
         < 2 GetConfig_Response 100
         > alive 2
         < 2 Alive_Response 100 state=1 id=0xFFFFFFFF time=0.000000",
    );
}

#[test]
fn a_full_queue_is_counted_before_the_eviction() {
    rehearsed(&format!("{}> splice 0 id=50 at=2001 duration=1 access=9\n< 0 Splice_Response 114 id=50", waiting([20, 0, 0, 0])));
}

#[test]
fn house_numbers_of_direct_calls() {
    let (mut splicer, refusal) = Splicer::fresh(&crate::people::card::channel_name());
    assert_eq!(refusal, None);
    let before = splicer.sessions.clone();
    assert_eq!(splicer.open(4), Err(1));
    assert_eq!(splicer.open(0), Ok(()));
    assert_eq!(splicer.open(0), Err(6));
    assert_eq!(splicer.close(4, 0), Err(1));
    assert_eq!(splicer.close(1, ROOM - 1), Err(2));
    assert_eq!(splicer.close(1, ROOM), Err(7));
    assert_eq!(splicer.message(4, &[], 0), Err(1));
    assert_eq!(splicer.message(1, &[], ROOM - 1), Err(2));
    assert_eq!(splicer.message(1, &[], ROOM), Err(7));
    assert_eq!(splicer.message(0, &[0; 7], ROOM), Err(5));
    let large = [0, 5, 0x0F, 0xF9, 0, 0, 0, 0];
    assert_eq!(splicer.message(0, &large, ROOM), Err(4));
    let mut whole = vec![0, 5, 0x0F, 0xF8, 0, 0, 0, 0];
    whole.resize(8 + 4_087, 0);
    assert_eq!(splicer.message(0, &whole, ROOM), Err(5));
    whole.push(0);
    whole.extend([0x43; 9]);
    let what = What::General { result: 103 };
    let answer = vec![Record { conn: 0, what }];
    assert_eq!(splicer.message(0, &whole, ROOM), Ok((answer, 8 + 4_088)));
    assert_eq!(splicer.tick(0, 1_000_000, ROOM - 1), Err(2));
    assert_eq!(splicer.tick(5, 0, ROOM), Ok(vec![]));
    assert_eq!(splicer.tick(0, 1_000_000, ROOM), Err(8));
    assert_eq!(splicer.tick(4, 999_999, ROOM), Err(3));
    assert_eq!(splicer.tick(5, 0, ROOM), Ok(vec![]));
    assert_eq!(splicer.clock, ninths(5, 0));
    assert_eq!(splicer.sessions, before);
}

#[test]
fn fresh_names() {
    let (splicer, refusal) = Splicer::fresh(&[0x41; 32]);
    assert_eq!((refusal, splicer.name), (Some(9), [0; 32]));
    let mut name = [0x41; 32];
    name[2] = 0;
    let (splicer, refusal) = Splicer::fresh(&name);
    assert_eq!(refusal, None);
    assert_eq!(hex(&splicer.name[..4]), "41 41 00 00");
    assert_eq!(splicer.name[4..], [0; 28]);
}

#[test]
fn a_large_message_is_read_whole() {
    let mut text = "> splice 0 id=1 at=1003 duration=1 desc=".to_string();
    for _ in 0..15 {
        text += &format!("01FE{}", "00".repeat(254));
    }
    text += &format!("01D5{}\n< 0 Splice_Response 100 id=1", "00".repeat(213));
    // 33 bytes, 15 descriptors of 256 and one of 215: a MessageSize of 4,088
    assert!(rehearsed(&text).held(0, 1).is_some());
}

#[test]
fn times_at_the_top_of_the_range() {
    let splicer = hold(
        "> open 3
         > init 3
         < 3 Init_Response 100
         > tick 4294967290
         > splice 3 id=1 at=4294967295.999999 duration=0xFFFFFFFF
         < 3 Splice_Response 100 id=1
         > splice 3 id=2 prior=1 duration=0xFFFFFFFF
         < 3 Splice_Response 100 id=2
         > tick 4294967295.999999
         < 3 SpliceComplete_Response 100 id=1 flag=0 played=0
         > alive 3
         < 3 Alive_Response 100 state=2 id=1 time=4294967295.999999",
    );
    let end = ninths(0xFFFF_FFFF, 999_999) + 2 * 429_496_729_500;
    assert_eq!(splicer.sessions[1].end, end);
}
