//! The commands `cues` and `cues --faults`: streams with cue calls (02, CR 7) on the second program.

use crate::gen::cue_streams::{given, stream};
use crate::gen::draw::Rng;
use crate::hold::faults::{told, Miscue, MISCUES};
use crate::hold::watch::table::Hits;
use crate::hold::watch::{Watch, Watcher, CUE_FLOORS as FLOORS, SEEN};
use crate::people::card;
use crate::people::cue_call::{self, judged, Comes, Given, WRAP};
use crate::people::decode::call_line;
use crate::people::driver_call::{Act, Call};
use crate::people::record_lines::{self, Item, Line, What};
use crate::rules::{ninths, Splicer, NONE, ROOM, TICK};
use rules::right::RIGHT;
use rules::state::Rules;

/// What came of a stream on the second program.
struct Played {
    outputs: Vec<Vec<u8>>,
    cues: usize,
    wrong: Option<String>,
}

fn play(stream: &[Act], miscue: Option<Miscue>) -> Played {
    play_by(stream, miscue.map_or(&RIGHT, Miscue::rules))
}

/// Plays a stream by the right rules, and counts.
fn counted(stream: &[Act]) -> (Played, Watch) {
    let mut watcher = Watcher::new();
    let played = watcher.during(|| play_by(stream, &SEEN));
    (played, watcher.seen())
}

fn play_by(stream: &[Act], rules: &'static Rules) -> Played {
    let (mut splicer, _) = rules::calls::fresh(&card::channel_name(), rules);
    let (mut outputs, mut wrong, mut cues) = (Vec::new(), None, 0);
    for (at, act) in stream.iter().enumerate() {
        let before = state_of(&splicer);
        let output = card::shown(act.made(&mut splicer));
        if let Call::Cue(given) = &act.call {
            cues += 1;
            if let Some(text) = held(given, &splicer, before, &output) {
                wrong.get_or_insert(format!("call {}: {text}", at + 1));
            }
        }
        outputs.push(output);
    }
    Played { outputs, cues, wrong }
}

/// All of a splicer's state: also Hardware_Config (02, CR 6) and what ended lately (02, CR 8).
#[derive(PartialEq)]
struct Kept {
    clock: u64,
    connections: [(bool, bool, Vec<u8>); 4],
    sessions: Vec<crate::rules::Session>,
    primary: u64,
    ended: Vec<crate::lately::Ended>,
}

fn state_of(s: &Splicer) -> Kept {
    let of = |conn: usize| (s.open[conn], s.initialised[conn], s.hardware[conn].clone());
    Kept {
        clock: s.clock,
        connections: std::array::from_fn(of),
        sessions: s.sessions.clone(),
        primary: s.primary,
        ended: s.ended.clone(),
    }
}

/// What must hold of a cue call by its records alone. The text tells what does not.
fn held(given: &Given, splicer: &Splicer, before: Kept, output: &[u8]) -> Option<&'static str> {
    if state_of(splicer) != before {
        return Some("a cue changed the state");
    }
    let list = record_lines::items(output);
    if matches!(list[..], [] | [Item::Refused(2 | 8 | 11)]) {
        return None;
    }
    let ready = (0..4).filter(|conn| splicer.open[*conn] && splicer.initialised[*conn]);
    let ready: Vec<u8> = ready.map(|conn| conn as u8).collect();
    let told: Vec<u8> = list.iter().map(conn_of).collect();
    if told != ready {
        return Some("not to the initialised connections, upward");
    }
    let kept = list.iter().all(|item| match item {
        Item::Record(record) => match &record.what {
            What::General { result } => *result == 117,
            What::Cue { seconds, micros, section } => *section == given.section && timely(given, *seconds, *micros),
            _ => false,
        },
        _ => false,
    });
    (!kept).then_some("another record than 117 or the cue with its time")
}

fn conn_of(item: &Item) -> u8 {
    match item {
        Item::Record(record) => record.conn,
        _ => 0xFF,
    }
}

/// "exact = given + 100 d, d < 2^33", 9 * written <= exact < 9 * written + 9.
fn timely(given: &Given, seconds: u32, micros: u32) -> bool {
    if (seconds, micros) == (NONE, NONE) {
        return true;
    }
    let (base, written) = (ninths(given.seconds, given.micros), ninths(seconds, micros));
    // the ticks from the given instant on, rounded up to the first that is not before what is written
    let ticks = (written.saturating_sub(base)).div_ceil(TICK);
    let exact = base + TICK * ticks;
    micros <= 999_999 && exact >= written && exact < written + 9 && ticks < WRAP
}

/// Plays N streams on the second program.
pub fn cues(seed: u64, n: u64, table: bool, floors: bool) -> Result<bool, String> {
    let mut hits = Hits::default();
    let (mut calls, mut made, mut differ) = (0, 0, 0);
    for index in 0..n {
        let stream = stream(seed, index);
        let (played, seen) = counted(&stream);
        calls += stream.len();
        made += played.cues;
        hits.add(&seen.cues);
        if let Some(text) = played.wrong {
            println!("cue stream {index}, {text}");
            differ += 1;
        }
    }
    let reached = hits.reached(FLOORS, table, floors);
    let known = FLOORS.len();
    println!("cues: {n} streams, {calls} calls, {made} cues, {known} branches, {differ} differ");
    Ok(differ == 0 && reached)
}

/// Shows that each deliberate mistake about cues is noticed.
pub fn faults(seed: u64, n: u64) -> Result<bool, String> {
    let streams: Vec<Vec<Act>> = (0..n).map(|index| stream(seed, index)).collect();
    let clean: Vec<Played> = streams.iter().map(|s| play(s, None)).collect();
    let seen = |(miscue, text): &&(Miscue, &str)| {
        let differs = |at: &usize| {
            let played = play(&streams[*at], Some(*miscue));
            played.outputs != clean[*at].outputs || played.wrong.is_some()
        };
        told(&miscue.name(), text, (0..streams.len()).find(differs).map(|at| format!("stream {at}")))
    };
    let unnoticed = MISCUES.len() - MISCUES.iter().filter(seen).count();
    println!("cues: {} mistakes, {unnoticed} not noticed", MISCUES.len());
    Ok(unnoticed == 0)
}

/// A call of the card program in a scenario's words.
fn written(act: &Act) -> String {
    let byte = |conn: &u32| *conn as u8;
    let plain = match &act.call {
        Call::Open(conn) => card::Call::Open(byte(conn)),
        Call::Close(conn) => card::Call::Close(byte(conn)),
        Call::Message(conn, bytes) => card::Call::Message(byte(conn), bytes.clone()),
        Call::Tick(seconds, micros) => card::Call::Tick(*seconds, *micros),
        Call::Cue(given) if act.room == ROOM => return given.line(),
        _ => return act.line(),
    };
    call_line(&plain)
}

/// A stream as lines, for people.
pub fn lines(seed: u64, index: u64) -> String {
    let (mut splicer, _) = Splicer::fresh(&card::channel_name());
    let mut text = String::new();
    for act in stream(seed, index) {
        text += &format!("> {}\n", written(&act));
        for item in record_lines::items(&card::shown(act.made(&mut splicer))) {
            text += &format!("< {}\n", item.line());
        }
    }
    text
}

/// N cue calls as lines: section (`-` without a byte), PTS, Seconds and MicroSeconds of the instant, and what comes of them:
/// `refused N`, `nothing`, `bad`, or `passes` and the two numbers of the time.
pub fn rows(seed: u64, n: u64) -> String {
    let mut rng = Rng::new(seed ^ 0x7001);
    let mut text = String::new();
    let (splicer, _) = Splicer::fresh(&card::channel_name());
    for _ in 0..n {
        let given = given(&mut rng);
        let mut digits: String = given.section.iter().map(|b| format!("{b:02X}")).collect();
        if digits.is_empty() {
            digits.push('-');
        }
        let Given { pts, seconds, micros, .. } = given;
        let comes = match splicer.cue_refused(&given, ROOM) {
            Some(number) => format!("refused {number}"),
            None => {
                let comes = judged(&given.section).0;
                let (seconds, micros) = cue_call::time_of(comes, &given);
                match comes {
                    Comes::Bad => "bad".to_string(),
                    Comes::Nothing => "nothing".to_string(),
                    Comes::At(_) | Comes::Timeless => format!("passes {seconds} {micros}"),
                }
            }
        };
        text += &format!("{digits} {pts} {seconds} {micros} {comes}\n");
    }
    text
}

#[cfg(test)]
mod tests {
    use super::*;
    use crate::gen::cue_streams::systematic;

    #[test]
    fn the_same_seed_gives_the_same_stream() {
        assert_eq!(stream(7, 3), stream(7, 3));
        assert_ne!(stream(7, 3), stream(8, 3));
    }

    #[test]
    fn what_is_written_is_held_to_the_given_instant() {
        let given = |seconds| Given { section: Vec::new(), pts: 0, seconds, micros: 0 };
        assert!(timely(&given(5), 5, 0));
        // one tick is 11 microseconds and a ninth
        assert!(timely(&given(5), 5, 11));
        assert!(!timely(&given(5), 5, 12));
        assert!(!timely(&given(5), 5, 10));
        assert!(!timely(&given(5), 4, 999_999));
    }

    #[test]
    fn the_plainest_sections_take_most_branches() {
        let calls: Vec<Act> = systematic().into_iter().map(|given| Act::plain(Call::Cue(given), ROOM)).collect();
        let hits = counted(&calls).1.cues;
        for (name, _) in FLOORS {
            if name.starts_with("bad:") || name.starts_with("nothing") {
                assert!(hits.of(name) > 0, "{name}");
            }
            if name.starts_with("passes:") {
                assert!(hits.of(name) > 0, "{name}");
            }
        }
    }
}
