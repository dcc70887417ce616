//! Every moment belongs to someone (02, CR 13).

use crate::gen::{self, rolling_streams};
use crate::hold::primary::{Airing, History, Times};
use crate::people::{card, rolling, scenario};
use crate::rules::SECOND;

/// An override, an equal override, an abort and a close.
const DAY: &str = "> open 0\n> init 0\n> open 1\n> init 1\n> tick 1000\n\
     > splice 0 id=1 at=1003 duration=900000 access=3\n\
     > splice 1 id=2 at=1005 duration=180000 access=6 override=1\n\
     > splice 1 id=3 at=1006 duration=90000 access=6 override=1\n\
     > splice 0 id=5 at=1008 duration=90000 access=2 override=1\n\
     > tick 1009\n> abort 0 id=1\n\
     > splice 1 id=4 at=1012 duration=900000\n> tick 1015\n> close 1\n> tick 1020\n";

#[test]
fn a_day_by_hand() {
    let run = card::run(&scenario::input_of(&scenario::parse(DAY).unwrap()));
    let history = History::of(&run.calls);
    // 1 is on air from 1,003 s, covered from 1,005 to 1,007 and aborted at 1,009 s; 2 is ended at
    // 1,006 s by 3, which plays 1 s; 5 fails; 4 is on air from 1,012 s to the close at 1,015 s.
    let names: Vec<u32> = history.airings.iter().map(|a| a.id).collect();
    assert_eq!(names, [1, 2, 3, 5, 4]);
    let times = history.times();
    assert_eq!(times.sessions, [4, 1, 1, 0, 3].map(|s| s * SECOND));
    // up to 1,003 s, from 1,009 to 1,012 and from 1,015 to 1,020 s
    assert_eq!(times.primary, (1003 + 3 + 5) * SECOND);
    assert_eq!(run.splicer.primary, 1011 * SECOND);
    assert_eq!(history.clock, 1020 * SECOND);
    assert_eq!(history.wrong(1011 * SECOND), [""; 0]);
    assert_eq!(history.wrong(1011 * SECOND + 1).len(), 1);
    let played: Vec<Option<u32>> = history.airings.iter().map(|a| a.played).collect();
    assert_eq!(played, [Some(360_000), Some(90_000), Some(90_000), None, Some(270_000)]);
}

/// By every ninth: the same as the definition says it, over a day of some ninths.
#[test]
fn the_pieces_are_the_ninths() {
    let airing = |access, start, over, begun| Airing { conn: 0, id: 0, access, start, end: 90, begun, over, played: None };
    let history = History {
        clock: 60,
        airings: vec![
            airing(1, 3, Some(40), true),
            airing(5, 10, Some(10), true),
            airing(5, 12, Some(20), true),
            airing(9, 15, Some(18), true),
            airing(7, 5, Some(30), false),
            airing(2, 44, None, true),
            airing(3, 50, Some(70), true),
        ],
    };
    let mut by_ninths = Times { primary: 0, sessions: vec![0; 7] };
    for n in 0..history.clock {
        let live = |a: &Airing| a.begun && a.start <= n && a.over.is_none_or(|to| n < to);
        let all = history.airings.iter().enumerate().filter(|(_, a)| live(a));
        match all.max_by_key(|(_, a)| a.access) {
            Some((at, _)) => by_ninths.sessions[at] += 1,
            None => by_ninths.primary += 1,
        }
    }
    assert_eq!(history.times(), by_ninths);
    assert_eq!(by_ninths.primary, 3 + 4);
    assert_eq!(by_ninths.sessions, [29, 0, 5, 3, 0, 6, 10]);
}

#[test]
fn every_moment_of_streams_belongs_to_someone() {
    for index in 0..28 {
        let run = card::run(&gen::stream(13, index));
        let history = History::of(&run.calls);
        assert_eq!(history.wrong(run.splicer.primary), [""; 0], "stream {index}");
    }
}

#[test]
fn and_of_rolling_cards() {
    for index in 0..28 {
        let (mut card, _) = rolling::Rolling::fresh(&card::channel_name());
        let mut history = History::default();
        for call in rolling_streams::stream(13, index).calls {
            let output = card.shown(&call);
            match &call {
                rolling::Call::Plain(call) => history.call(call, &output),
                _ => history.brought(card.splicer.clock, &output),
            }
        }
        let primary = card.splicer.primary;
        assert_eq!(history.wrong(primary), [""; 0], "stream {index}");
    }
}
