//! As-run lists of small days, by hand, and of streams.

use super::*;
use crate::people::scenario;

#[test]
fn a_covered_spot_and_its_follower() {
    let text = "> open 0\n> init 0\n> open 1\n> init 1\n> tick 1000\n\
         > splice 0 id=1 at=1003 duration=900000 access=2\n\
         > splice 0 id=2 prior=1 duration=90000\n\
         > splice 1 id=1 at=1005 duration=180000 access=5 override=1\n\
         > splice 1 id=9 at=1004 duration=1 event=4711\n\
         > tick 1020\n";
    let input = scenario::input_of(&scenario::parse(text).unwrap());
    let output = card::run(&input).output();
    let (text, same) = as_run(&input, &output);
    assert!(same);
    let lines: Vec<String> = text.lines().map(|l| l.split_whitespace().collect::<Vec<_>>().join(" ")).collect();
    let expected = [
        "0 1 1003.000000 1013.000000 720000 100 (Successful Response)",
        "0 2 1013.000000 1014.000000 90000 100 (Successful Response)",
        "1 1 1005.000000 1007.000000 180000 100 (Successful Response)",
        "1 9 1004.000000 1004.000000 109 (Splice Collision), SpliceEventID 4711",
        "0.000000 1003.000000 primary channel",
        "1003.000000 1005.000000 connection 0 session 1",
        "1005.000000 1007.000000 connection 1 session 1",
        "1007.000000 1013.000000 connection 0 session 1",
        "1013.000000 1014.000000 connection 0 session 2",
        "1014.000000 1020.000000 primary channel",
        "primary channel 1009.000000 s 9081000000 ninths",
        "sessions on air 11.000000 s 99000000 ninths",
        "together 1020.000000 s 9180000000 ninths",
        "clock 1020.000000 s 9180000000 ninths",
    ];
    for line in expected {
        assert!(lines.contains(&line.to_string()), "{line}\n{text}");
    }
    assert_eq!(lines.iter().filter(|l| l.contains("connection ")).count(), 6);
}

#[test]
fn the_timeline_agrees_with_every_played_duration() {
    let mut ended = 0;
    for index in 0..26 {
        let run = card::run(&crate::gen::stream(5, index));
        let day = Day::of(&run.calls);
        for (place, row) in day.rows.iter().enumerate() {
            let own = day.spans.iter().filter(|span| span.row == place);
            let sum: u64 = own.map(|span| span.to - span.from).sum();
            if let Some(played) = row.played {
                ended += 1;
                assert_eq!(sum / TICK, u64::from(played), "stream {index}: {row:?}");
            }
        }
    }
    assert!(ended > 1_000, "{ended}");
}

#[test]
fn a_gap_is_told() {
    let mut day = Day { clock: 900, ..Day::default() };
    assert!(!day.sums().contains("DIFFER"));
    day.spans.push(Span { from: 100, to: 150, row: 0 });
    assert!(day.sums().ends_with("THEY DIFFER by 50 ninths\n"));
}

#[test]
fn no_stream_has_a_gap() {
    for index in 0..26 {
        let run = card::run(&crate::gen::stream(5, index));
        let text = Day::of(&run.calls).sums();
        assert!(!text.contains("DIFFER"), "stream {index}: {text}");
    }
}

#[test]
fn a_spot_ended_by_an_equal_one() {
    let text = "> open 0\n> init 0\n> tick 1000\n\
         > splice 0 id=1 at=1003 duration=900000 access=4\n\
         > splice 0 id=2 prior=1 duration=90000\n\
         > splice 0 id=3 at=1005 duration=180000 access=4 override=1\n\
         > tick 1020\n";
    let input = scenario::input_of(&scenario::parse(text).unwrap());
    let output = card::run(&input).output();
    let (text, _) = as_run(&input, &output);
    let lines: Vec<String> = text.lines().map(|l| l.split_whitespace().collect::<Vec<_>>().join(" ")).collect();
    for line in [
        "0 1 1003.000000 1005.000000 180000 125 (Channel Override)",
        "0 3 1005.000000 1007.000000 180000 100 (Successful Response)",
        "0 2 1013.000000 1005.000000 125 (Channel Override)",
        "1003.000000 1005.000000 connection 0 session 1",
        "1005.000000 1007.000000 connection 0 session 3",
        "1007.000000 1020.000000 primary channel",
    ] {
        assert!(lines.contains(&line.to_string()), "{line}\n{text}");
    }
}

#[test]
fn a_spot_over_the_rollover_of_the_counter() {
    let text = include_str!("../../scenarios/02-rolling-rollover.txt");
    let calls = scenario::rolling_calls(&scenario::parse(text).unwrap()).unwrap();
    let text = as_rolled(&calls);
    let lines: Vec<String> = text.lines().map(|l| l.split_whitespace().collect::<Vec<_>>().join(" ")).collect();
    for line in ["0 7 1003.000000 1005.000000 180000 100 (Successful Response)", "1003.000000 1005.000000 connection 0 session 7"] {
        assert!(lines.contains(&line.to_string()), "{line}\n{text}");
    }
    // aborted a tick behind its start, between two microseconds
    let text = include_str!("../../scenarios/02-rolling-played.txt");
    let calls = scenario::rolling_calls(&scenario::parse(text).unwrap()).unwrap();
    let text = as_rolled(&calls);
    assert!(text.contains("1003.000011+1/9           1  116"), "{text}");
}

#[test]
fn aborts_and_a_reused_number() {
    let text = "> open 0\n> init 0\n> tick 1000\n\
         > splice 0 id=1 at=1003 duration=900000\n\
         > splice 0 id=2 prior=1 duration=90000\n\
         > tick 1004\n> abort 0 id=1\n\
         > splice 0 id=1 at=1010 duration=90000\n> tick 1030\n";
    let input = scenario::input_of(&scenario::parse(text).unwrap());
    let output = card::run(&input).output();
    let (text, _) = as_run(&input, &output);
    let lines: Vec<String> = text.lines().map(|l| l.split_whitespace().collect::<Vec<_>>().join(" ")).collect();
    for line in [
        "0 1 1003.000000 1004.000000 90000 116 (Insertion Aborted)",
        "0 2 1013.000000 1004.000000 116 (Insertion Aborted)",
        "0 1 1010.000000 1011.000000 90000 100 (Successful Response)",
    ] {
        assert!(lines.contains(&line.to_string()), "{line}\n{text}");
    }
}
