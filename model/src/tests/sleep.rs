//! What a driver reads to sleep: the values are worked by hand from the text of the reads.

use super::{hold, rehearsed, waiting};
use crate::gen::{self, rolling_streams};
use crate::people::card;
use crate::people::rolling::{Call, Rolling};
use crate::people::scenario::{parse, rolling_calls};
use rules::state::{Splicer, State, ROOM};

#[test]
fn with_nothing_held_nothing_is_read() {
    hold("> air none\n> due none\n> sessions\n> open 0\n> tick 7\n> air none\n> due none\n> sessions");
}

/// 1,003 s are 9,027,000,000 ninths; 30 s on it ends.
#[test]
fn one_waits_and_is_on_air() {
    rehearsed(
        "> splice 0 id=7 at=1003 duration=2700000 access=4 event=99 desc=02055341504908
         < 0 Splice_Response 100 id=7
         > air none
         > due 9027000000 1003.000000
         > sessions waiting:0:7:99:0xFFFFFFFF:4:0:8:9027000000:9297000000:0
         > tick 1003
         < 0 SpliceComplete_Response 100 id=7 flag=0 played=0
         > air 0:7:99:4:8:9027000000:9297000000:0
         > due 9297000000 1033.000000
         > tick 1003.000007
         > air 0:7:99:4:8:9027000000:9297000000:63
         > sessions air:0:7:99:0xFFFFFFFF:4:0:8:9027000000:9297000000:63
         > tick 1033
         < 0 SpliceComplete_Response 100 id=7 flag=1 played=2700000
         > air none
         > due none",
    );
}

/// A tick is 100 ninths, 11 and a ninth microseconds: 12 reach it, 11 do not.
#[test]
fn an_end_between_two_microseconds() {
    rehearsed(
        "> splice 0 id=1 at=1003 duration=1
         < 0 Splice_Response 100 id=1
         > tick 1003
         < 0 SpliceComplete_Response 100 id=1 flag=0 played=0
         > due 9027000100 1003.000012
         > tick 1003.000011
         > due 9027000100 1003.000012
         > tick 1003.000012
         < 0 SpliceComplete_Response 100 id=1 flag=1 played=1
         > due none",
    );
}

/// The last tick's time is 4,294,967,295 s 999,999 us, 38,654,705,663,999,991 ninths. A duration of 1 from 12 us before the
/// range's end (108 ninths) ends 8 ninths before it: no tick's time reaches that; from 13 us before, the last one does.
#[test]
fn the_last_second() {
    for (micros, instant, tick) in [("999988", "38654705663999992", "never"), ("999987", "38654705663999983", "4294967295.999999")]
    {
        hold(&format!(
            "> open 3
             > init 3
             < 3 Init_Response 100
             > tick 4294967290
             > splice 3 id=1 at=4294967295.{micros} duration=1
             < 3 Splice_Response 100 id=1
             > tick 4294967295.{micros}
             < 3 SpliceComplete_Response 100 id=1 flag=0 played=0
             > due {instant} {tick}"
        ));
    }
    hold(
        "> open 3
         > init 3
         < 3 Init_Response 100
         > tick 4294967290
         > splice 3 id=1 at=4294967295.999999 duration=1
         < 3 Splice_Response 100 id=1
         > due 38654705663999991 4294967295.999999
         > tick 4294967295.999999
         < 3 SpliceComplete_Response 100 id=1 flag=0 played=0
         > air 3:1:0xFFFFFFFF:0:5:38654705663999991:38654705664000091:0
         > due 38654705664000091 never",
    );
}

/// Two connections hold the same number; the higher one evicts the other at the same start. A start at an end is one instant.
#[test]
fn equal_starts() {
    rehearsed(
        "> open 1
         > init 1
         < 1 Init_Response 100
         > splice 0 id=1 at=1003 duration=90000 access=2
         < 0 Splice_Response 100 id=1
         > due 9027000000 1003.000000
         > splice 1 id=1 at=1003 duration=180000 access=5
         < 0 Splice_Response 109 id=1
         < 1 Splice_Response 100 id=1
         > due 9027000000 1003.000000
         > splice 1 id=2 prior=1 duration=90000 access=5
         < 1 Splice_Response 100 id=2
         > sessions waiting:1:1:0xFFFFFFFF:0xFFFFFFFF:5:0:5:9027000000:9045000000:0 \
           waiting:1:2:0xFFFFFFFF:1:5:0:5:9045000000:9054000000:0
         > tick 1003
         < 1 SpliceComplete_Response 100 id=1 flag=0 played=0
         > air 1:1:0xFFFFFFFF:5:5:9027000000:9045000000:0
         > due 9045000000 1005.000000
         > tick 1005
         < 1 SpliceComplete_Response 100 id=1 flag=1 played=180000
         < 1 SpliceComplete_Response 100 id=2 flag=0 played=0
         > air 1:2:0xFFFFFFFF:5:5:9045000000:9054000000:0
         > sessions air:1:2:0xFFFFFFFF:1:5:0:5:9045000000:9054000000:0",
    );
}

/// 1 is on air from 1,003 s, covered by 2 from 1,004 s to 1,006 s, and on air again to 1,013 s.
#[test]
fn covered_and_on_air_again() {
    rehearsed(
        "> splice 0 id=1 at=1003 duration=900000 access=3
         < 0 Splice_Response 100 id=1
         > splice 0 id=2 at=1004 duration=180000 access=6 override=1
         < 0 Splice_Response 100 id=2
         > tick 1005
         < 0 SpliceComplete_Response 100 id=1 flag=0 played=0
         < 0 SpliceComplete_Response 100 id=2 flag=0 played=0
         > air 0:2:0xFFFFFFFF:6:5:9036000000:9054000000:9000000
         > due 9054000000 1006.000000
         > sessions air:0:2:0xFFFFFFFF:0xFFFFFFFF:6:1:5:9036000000:9054000000:9000000 \
           covered:0:1:0xFFFFFFFF:0xFFFFFFFF:3:0:5:9027000000:9117000000:9000000
         > tick 1006.500000
         < 0 SpliceComplete_Response 100 id=2 flag=1 played=180000
         > air 0:1:0xFFFFFFFF:3:5:9027000000:9117000000:13500000
         > due 9117000000 1013.000000",
    );
}

/// 64 wait and ten are started, one of each AccessType.
#[test]
fn at_most_74_are_held() {
    let mut text = waiting([0, 20, 20, 14]);
    for access in 0..10 {
        let at = 1003 + access;
        text += &format!("> splice 0 id={access} at={at} duration=0xFFFFFFFF access={access} override=1\n");
        text += &format!("< 0 Splice_Response 100 id={access}\n");
    }
    text += "> tick 1012\n";
    text += &(0..10).map(|id| format!("< 0 SpliceComplete_Response 100 id={id} flag=0 played=0\n")).collect::<String>();
    for id in 10..20 {
        text += &format!("> splice 0 id={id} at={} duration=1\n< 0 Splice_Response 100 id={id}\n", 3000 - id);
    }
    let rows = rehearsed(&text).sessions();
    assert_eq!(rows.len(), 74);
    let started: Vec<(u32, State)> = rows[..10].iter().map(|row| (row.id, row.state)).collect();
    let covered = (0..9).rev().map(|id| (id, State::Covered));
    assert_eq!(started, [(9, State::OnAir)].into_iter().chain(covered).collect::<Vec<_>>());
    assert!(rows[10..].iter().all(|row| row.state == State::Waiting));
    assert!(rows[10..].windows(2).all(|two| two[0].start < two[1].start));
    assert_eq!((rows[73].id, rows[73].start), (10, 2_990 * 9_000_000));
}

/// What is read of a rolling card behind these calls.
fn ticks(text: &str) -> (bool, u32) {
    let init = format!("> open 0\n> init 0\n{text}");
    let (mut card, _) = Rolling::fresh(&card::channel_name());
    for call in rolling_calls(&parse(&init).unwrap()).unwrap() {
        assert_ne!(card.shown(&call).first(), Some(&0x45), "{call:?}");
    }
    (card.counting.due)(&card)
}

#[test]
fn ticks_of_a_rolling_card() {
    let none = (false, 8_100_000);
    assert_eq!(ticks(""), none);
    // every reading before the instant is refused
    assert_eq!(ticks("> splice 0 id=1 at=5 duration=90000"), none);
    assert_eq!(ticks("> splice 0 id=1 at=5 duration=90000\n> instant 2 reading=9"), (true, 270_000));
    assert_eq!(ticks("> instant 1000 reading=9"), none);
    let splice = |at: &str| ticks(&format!("> instant 1000 reading=0xFFFFFFF0\n> splice 0 id=1 at={at} duration=1\n"));
    assert_eq!(splice("1003"), (true, 270_000));
    // 27,000,009 ninths are 270,000 ticks and 9 ninths
    assert_eq!(splice("1003.000001"), (true, 270_001));
    // the step's limit is 90 s
    assert_eq!(splice("1090"), (true, 8_100_000));
    assert_eq!(splice("1090.000001"), none);
    // 30,000 ticks are a third of a second: 18,000,000 ninths less 3,000,000
    assert_eq!(ticks("> instant 1000 reading=0xFFFFFFF0\n> splice 0 id=1 at=1003 duration=1\n> reading 29984"), (true, 240_000));
}

/// A reading that reaches the range's end is refused: nothing before it reaches the last microsecond but one tick short.
#[test]
fn ticks_in_the_last_second() {
    let splice = |at: &str| ticks(&format!("> instant 4294967290 reading=0\n> splice 0 id=1 at={at} duration=1\n"));
    // 53,999,892 ninths on: 539,999 ticks, 100 ninths before the end
    assert_eq!(splice("4294967295.999988"), (true, 539_999));
    assert_eq!(splice("4294967295.999989"), (false, 8_100_000));
}

/// A tick just before what is due writes nothing; at the time read it writes something.
#[test]
fn nothing_happens_before_the_tick_that_is_read() {
    let mut read = 0;
    for index in 0..14 {
        card::run(&gen::stream(41, index)).calls.iter().for_each(|done| read += u32::from(done.read.due.is_some()));
        let (mut splicer, _) = Splicer::fresh(&card::channel_name());
        for done in card::run(&gen::stream(41, index)).calls {
            card::make(&mut splicer, &done.call);
            if let Some((_, Some((seconds, micros)))) = splicer.due() {
                assert!(!splicer.clone().tick(seconds, micros, ROOM).unwrap().is_empty());
                let before = u64::from(seconds) * 1_000_000 + u64::from(micros) - 1;
                let said = splicer.clone().tick((before / 1_000_000) as u32, (before % 1_000_000) as u32, ROOM);
                assert!(said == Ok(Vec::new()) || said == Err(3), "stream {index}");
            }
        }
    }
    assert!(read > 1_000);
}

#[test]
fn nor_before_the_reading_that_is_read() {
    let mut told = 0;
    for index in 0..14 {
        let (mut card, _) = Rolling::fresh(&card::channel_name());
        for call in rolling_streams::stream(41, index).calls {
            card.shown(&call);
            let ((due, step), Some(last)) = ((card.counting.due)(&card), card.last) else {
                continue;
            };
            told += u32::from(due);
            let after = |step: u32| card.clone().shown(&Call::Reading(last.wrapping_add(step)));
            assert_eq!(due, !after(step).is_empty() && after(step)[0] != 0x45, "stream {index}");
            assert!(step == 0 || after(step - 1).first().is_none_or(|mark| *mark == 0x45), "stream {index}");
        }
    }
    assert!(told > 500);
}
