//! The commands `rolls` and `rolls --faults`: streams of a rolling card (02, CR 9) on the second program.

use crate::gen::rolling_streams::{indices, stream, Stream};
use crate::hold::faults::{told, Slip, SLIPS};
use crate::hold::watch::table::{Floors, Hits};
use crate::hold::watch::{self, Watch, Watcher};
use crate::people::card;
use crate::people::record_lines::{self, Line};
use crate::people::rolling::{Call, Rolling};
use crate::rules::{ninths, Splicer, MICROSECOND, ROOM, SECOND, TICK};

/// Branches of a rolling card, with their floors for 200 streams.
pub const FLOORS: &Floors = &[
    ("instant good", 20),
    ("instant good, with starts or ends due", 20),
    ("instant good, before all that wait", 10),
    ("instant good, in the last second", 1),
    ("instant 2 output buffer too small", 10),
    ("instant 8 MicroSeconds above 999,999", 5),
    ("instant 8 the second with bad MicroSeconds", 30),
    ("instant 12 a second one", 30),
    ("reading good", 8000),
    ("reading 2 output buffer too small", 300),
    ("reading 12 before the instant", 30),
    ("reading 12 a step over 8,100,000", 300),
    ("reading 12 past the last second", 20),
    ("step 0", 100),
    ("step 1", 300),
    ("step 8,099,999", 30),
    ("step 8,100,000", 1000),
    ("step 8,100,001", 30),
    ("step 2^31", 30),
    ("step 2^32 - 1", 30),
    ("step of another length", 3000),
    ("rollover", 150),
    ("rollover over a start or an end", 20),
    ("rollover with one on air", 10),
    ("clock between two microseconds", 4000),
    ("clock in the last second", 30),
    ("clock in the last tick", 10),
    ("start a ninth before a reading", 20),
    ("start on a reading", 50),
    ("start a ninth behind a reading", 20),
    ("end a ninth before a reading", 20),
    ("end on a reading", 50),
    ("end a ninth behind a reading", 5),
    ("Alive between two microseconds", 300),
    ("abort on air between two microseconds", 100),
    ("112 by less than a microsecond", 50),
    ("100 by less than a microsecond", 50),
];

/// What came of a stream on the second program.
struct Played {
    outputs: Vec<Vec<u8>>,
    /// The ticks to what is due, read after each call.
    dues: Vec<(bool, u32)>,
    wrong: Option<String>,
}

/// Plays a stream. The clock is held to the sum of all good steps since the instant, and a stream of whole
/// microseconds to a plain splicer that is ticked to the same.
fn play(stream: &Stream, slip: Option<Slip>) -> Played {
    let name = card::channel_name();
    match slip {
        None => play_on(stream, watch::fresh_rolling(&name).0),
        Some(slip) => play_on(stream, Rolling::fresh_by(&name, slip.rules(), slip.counting()).0),
    }
}

/// Plays a stream by the right rules, and counts.
fn counted(stream: &Stream) -> (Played, Watch) {
    let mut watcher = Watcher::new();
    let played = watcher.during(|| play(stream, None));
    (played, watcher.seen())
}

fn play_on(stream: &Stream, mut card: Rolling) -> Played {
    let (mut plain, _) = Splicer::fresh(&card::channel_name());
    let mut base = None;
    let (mut outputs, mut dues) = (Vec::new(), Vec::new());
    let mut wrong = None;
    for (at, call) in stream.calls.iter().enumerate() {
        if at % 13 == 5 && !matches!(call, Call::Plain(_)) {
            // refused, and nothing changes
            let number = card.make(call, ROOM - 1).err().unwrap_or(0);
            outputs.push(vec![0x45, number]);
        }
        let before = card.last;
        let output = card.shown(call);
        let good = output.first() != Some(&0x45);
        match call {
            Call::Instant { seconds, micros, .. } if good => base = Some((ninths(*seconds, *micros), 0)),
            Call::Reading(reading) if good => {
                let step = reading.wrapping_sub(before.unwrap_or(0));
                base = base.map(|(time, ticks)| (time, ticks + u64::from(step)));
            }
            _ => {}
        }
        let clock = base.map_or(0, |(time, ticks)| time + TICK * ticks);
        if card.splicer.clock != clock {
            wrong.get_or_insert(format!("call {}: another clock", at + 1));
        }
        if stream.whole {
            let expected = as_plain(&mut plain, call, good, card.splicer.clock);
            if expected.is_some_and(|expected| expected != output) {
                wrong.get_or_insert(format!("call {}: not as a plain splicer", at + 1));
            }
        }
        outputs.push(output);
        dues.push((card.counting.due)(&card));
    }
    Played { outputs, dues, wrong }
}

/// What a plain splicer writes for the call, ticked to the same clock. Nothing is to be compared of a refused instant or reading.
pub fn as_plain(plain: &mut Splicer, call: &Call, good: bool, clock: u64) -> Option<Vec<u8>> {
    let call = match call {
        Call::Plain(call) => call.clone(),
        _ if !good => return None,
        _ => {
            let micros = clock % SECOND / MICROSECOND;
            card::Call::Tick((clock / SECOND) as u32, micros as u32)
        }
    };
    Some(card::make(plain, &call))
}

/// Plays N rolling streams on the second program.
pub fn rolls(seed: u64, n: u64, table: bool, floors: bool) -> Result<bool, String> {
    let mut hits = Hits::default();
    let (mut calls, mut differ) = (0, 0);
    for index in indices(n) {
        let stream = stream(seed, index);
        let (played, seen) = counted(&stream);
        calls += stream.calls.len();
        hits.add(&seen.rolls);
        if let Some(text) = played.wrong {
            println!("rolling stream {index}, {text}");
            differ += 1;
        }
    }
    let reached = hits.reached(FLOORS, table, floors);
    let rollovers = hits.of("rollover");
    let more = indices(n).count() as u64 - n;
    println!(
        "rolls: {n} streams and {more} that end behind the last second, {calls} calls, {rollovers} rollovers, {differ} differ"
    );
    Ok(differ == 0 && reached)
}

/// Shows that each deliberate mistake of a rolling card is noticed.
pub fn faults(seed: u64, n: u64) -> Result<bool, String> {
    let streams: Vec<Stream> = indices(n).map(|index| stream(seed, index)).collect();
    let clean: Vec<Played> = streams.iter().map(|s| play(s, None)).collect();
    let seen = |(slip, text): &&(Slip, &str)| {
        let differs = |at: &usize| {
            let played = play(&streams[*at], Some(*slip));
            (played.outputs, played.dues) != (clean[*at].outputs.clone(), clean[*at].dues.clone())
        };
        told(&format!("{slip:?}"), text, (0..streams.len()).find(differs).map(|at| format!("stream {at}")))
    };
    let unnoticed = SLIPS.len() - SLIPS.iter().filter(seen).count();
    println!("rolls: {} mistakes, {unnoticed} not noticed", SLIPS.len());
    Ok(unnoticed == 0)
}

/// A rolling stream as lines, for people.
pub fn lines(seed: u64, index: u64) -> String {
    let (mut card, _) = Rolling::fresh(&card::channel_name());
    let mut text = String::new();
    for call in stream(seed, index).calls {
        text += &format!("> {}\n", call.line());
        for item in record_lines::items(&card.shown(&call)) {
            text += &format!("< {}\n", item.line());
        }
    }
    text
}
