//! Rolling cards (02, CR 9): the second program's and the core's, given the same calls; the books by the
//! records alone; and, for streams of whole microseconds, a plain core that is ticked to the same.

use crate::alike;
use crate::books::Books;
use crate::calls::{self, Act, Desk, Said};
use crate::looks::Told;
use crate::run_scenarios;
use crate::stream_calls::LONGEST;
use crate::tell;
use crate::wrong::Wrong;
use model::gen::draw::Rng;
use model::gen::rolling_streams;
use model::hold::faults::{Slip, SLIPS};
use model::hold::rolling_streams::FLOORS;
use model::hold::watch::table::Hits;
use model::hold::watch::{self, Watcher};
use model::people::card;
use model::people::record_lines::Line;
use model::people::rolling::{Call, Rolling};
use model::people::scenario;
use model::rules;
use splicer::{RollingSplicer, Splicer, OUT};

/// A mistake must be noticed within this many streams.
const FOR_A_SLIP: u64 = 60;

/// A call of a rolling card as the other modules know it: open, close or message.
fn plain(call: &Call) -> Option<calls::Call> {
    match call {
        Call::Plain(call) => Some(call.clone().into()),
        _ => None,
    }
}

fn ask_model(model: &mut Rolling, call: &Call, room: usize) -> Said {
    let result = model.make(call, room);
    Said::of(result, model.splicer.moved)
}

/// The second program's ticks to what is due.
fn due(model: &Rolling) -> Option<u32> {
    let (due, ticks) = (model.counting.due)(model);
    due.then_some(ticks)
}

fn ask_core(core: &mut RollingSplicer, call: &Call, out: &mut [u8]) -> Said {
    let nothing = &[][..];
    let result = match call {
        Call::Plain(card::Call::Open(conn)) => core.open((*conn).into()).map(|()| (nothing, 0, 0)),
        Call::Plain(card::Call::Close(conn)) => core.close((*conn).into(), out).map(|w| (w, 0, 0)),
        Call::Plain(card::Call::Message(conn, bytes)) => {
            core.message((*conn).into(), bytes, out).map(|h| (h.written, h.consumed, h.moved as usize))
        }
        Call::Plain(card::Call::Tick(..)) => panic!("a rolling card has no tick"),
        Call::Instant { seconds, micros, reading } => core.instant(*seconds, *micros, *reading, out).map(|w| (w, 0, 0)),
        Call::Reading(reading) => core.reading(*reading, out).map(|w| (w, 0, 0)),
    };
    match result {
        Ok((written, consumed, moved)) => Said { refused: 0, consumed, written: written.to_vec(), moved },
        Err(refusal) => Said::refusal(refusal.number()),
    }
}

/// The books, and the counter by 02's sentences.
#[derive(Clone, Default)]
struct RollingBooks {
    books: Books,
    last: Option<u32>,
}

impl RollingBooks {
    fn call(&mut self, call: &Call, room: usize, said: &Said) -> Result<(), String> {
        if let Some(call) = plain(call) {
            return self.books.call(&Act::plain(call, room), said);
        }
        let (number, until, reading) = self.brought(call, room);
        self.books.brought(number, until, said)?;
        if number == 0 {
            self.last = Some(reading);
        }
        Ok(())
    }

    /// What a driver reads to sleep: the ticks to the first good reading that writes. 12 "for a step over 8,100,000 ticks or
    /// past the time field's last second, a reading before the instant is given".
    fn due(&self, due: Option<u32>) -> Result<(), String> {
        let clock = self.books.clock();
        let step = |instant: u64| (instant - clock + 99) / 100;
        let good = |step: &u64| *step <= 8_100_000 && (clock + 100 * step) / 9_000_000 <= u64::from(u32::MAX);
        let wanted = self.last.and(self.books.instant()).map(step).filter(good);
        match due.map(u64::from) == wanted {
            true => Ok(()),
            false => Err("by the records alone: other ticks to what is due".to_string()),
        }
    }

    /// The house number or 0, the clock afterwards, and the reading that is kept.
    fn brought(&self, call: &Call, room: usize) -> (u8, u64, u32) {
        let clock = self.books.clock();
        match *call {
            Call::Instant { seconds, micros, reading } => {
                let time = u64::from(seconds) * 9_000_000 + u64::from(micros) * 9;
                let number = match (room < OUT, micros > 999_999, self.last) {
                    (true, ..) => 2,
                    (_, true, _) => 8,
                    (.., Some(_)) => 12,
                    _ => 0,
                };
                (number, time, reading)
            }
            Call::Reading(reading) => {
                let Some(last) = self.last.filter(|_| room >= OUT) else {
                    return (if room < OUT { 2 } else { 12 }, clock, reading);
                };
                // through the rollover, in a width that does not wrap
                let step = (u64::from(reading) + (1 << 32) - u64::from(last)) % (1 << 32);
                let until = clock + 100 * step;
                let good = step <= 8_100_000 && until / 9_000_000 <= u64::from(u32::MAX);
                (if good { 0 } else { 12 }, until, reading)
            }
            Call::Plain(_) => (0, clock, 0),
        }
    }
}

struct RollingPair {
    core: RollingSplicer,
    model: Rolling,
    watcher: Watcher,
    books: RollingBooks,
    told: Told,
    /// Of a stream of whole microseconds.
    plain: Option<Splicer>,
}

impl RollingPair {
    fn fresh(slip: Option<Slip>, whole: bool) -> Result<RollingPair, String> {
        let name = card::channel_name();
        let (model, _) = match slip {
            None => watch::fresh_rolling(&name),
            Some(slip) => Rolling::fresh_by(&name, slip.rules(), slip.counting()),
        };
        let (core, named) = RollingSplicer::fresh(&name);
        if named.is_err() {
            return Err("fresh refused".to_string());
        }
        Ok(RollingPair {
            core,
            model,
            watcher: Watcher::new(),
            books: RollingBooks::default(),
            told: Told::default(),
            plain: whole.then(|| Splicer::fresh(&name).0),
        })
    }

    fn call(&mut self, call: &Call, room: usize, desk: &mut Desk) -> Result<Said, String> {
        let wanted = self.watcher.during(|| ask_model(&mut self.model, call, room));
        let before = (wanted.refused != 0).then(|| self.core.clone());
        let found = ask_core(&mut self.core, call, desk.buffer(room));
        desk.same(&found, &wanted)?;
        if before.is_some_and(|before| before != self.core) {
            return Err(format!("refused {} and changed its state", found.refused));
        }
        self.books.call(call, room, &found)?;
        let (model, books) = (&self.model.splicer, &self.books.books);
        alike::after(&self.core, self.core.waiting(), model, books, desk.turn(), Wrong::Nothing)?;
        self.told.same(&self.core, model, books, Wrong::Nothing)?;
        let (due, wanted) = (self.core.due(), due(&self.model));
        if due != wanted {
            return Err(format!("due: core {due:?}, second program {wanted:?}"));
        }
        self.books.due(due)?;
        self.as_plain(call, room, &found, desk)?;
        Ok(found)
    }

    /// The plain core, ticked to the same whole microsecond, says the same. It is not called where the rolling card alone refuses.
    fn as_plain(&mut self, call: &Call, room: usize, said: &Said, desk: &mut Desk) -> Result<(), String> {
        let Some(core) = &mut self.plain else {
            return Ok(());
        };
        let clock = self.model.splicer.clock;
        let call = match plain(call) {
            Some(call) => call,
            None if said.refused != 0 => return Ok(()),
            None => {
                let micros = clock % rules::SECOND / rules::MICROSECOND;
                calls::Call::Tick((clock / rules::SECOND) as u32, micros as u32)
            }
        };
        let same = calls::ask_core(core, &call, desk.buffer(room));
        if desk.touched(same.written.len()) || same != *said {
            return Err(format!("a plain core says: {}", same.line()));
        }
        Ok(())
    }
}

/// What came of some streams.
#[derive(Default)]
pub struct Tally {
    streams: u64,
    calls: u64,
    whole: u64,
    hits: Hits,
    differences: Vec<String>,
}

/// Plays a stream on both, at times with a short buffer first, or on a copy.
fn play(seed: u64, index: u64, slip: Option<Slip>, desk: &mut Desk, tally: &mut Tally) {
    let stream = rolling_streams::stream(seed, index);
    let rng = Rng::new(seed ^ index.wrapping_mul(0x2545_F491_4F6C_DD1D));
    tally.streams += 1;
    tally.whole += u64::from(stream.whole);
    let mut pair = match RollingPair::fresh(slip, stream.whole) {
        Ok(pair) => pair,
        Err(text) => return tally.differences.push(text),
    };
    for (at, call) in stream.calls.iter().enumerate() {
        let short = rng.chance(8).then(|| rng.pick(&[0, OUT - 1]));
        let before = rng.chance(5).then(|| pair.core.clone());
        let full = rng.pick(&[OUT, OUT, OUT + 1, LONGEST]);
        for room in short.into_iter().chain([full]) {
            tally.calls += 1;
            let told = match pair.call(call, room, desk) {
                Ok(said) => again(before.as_ref().filter(|_| room == full), &pair, call, &said, desk),
                Err(text) => Err(text),
            };
            if let Err(text) = told {
                let (at, line) = (at + 1, call.line());
                let text = format!("rolling stream {index}, call {at}: {line}, room {room}\n{text}\n");
                return tally.differences.push(text);
            }
        }
    }
    tally.hits.add(&pair.watcher.seen().rolls);
}

/// A copy of the core from before the call gives the same and becomes the same. The call with a short
/// buffer between has changed nothing.
fn again(before: Option<&RollingSplicer>, pair: &RollingPair, call: &Call, said: &Said, desk: &mut Desk) -> Result<(), String> {
    let Some(before) = before else {
        return Ok(());
    };
    let mut copy = before.clone();
    let same = ask_core(&mut copy, call, desk.buffer(OUT));
    // an open with a short buffer is good, and is refused the second time
    let opened = matches!(call, Call::Plain(card::Call::Open(_)));
    if desk.touched(same.written.len()) || !opened && (same != *said || copy != pair.core) {
        return Err("a copy of the core went another way".to_string());
    }
    Ok(())
}

/// The comparison on N streams, then every mistake, by the core and by the books alone, and the scenarios.
pub fn everything(seed: u64, n: u64) -> Vec<bool> {
    let mut results = vec![compared(seed, n)];
    for (slip, text) in SLIPS {
        results.push(noticed(seed, *slip, text));
    }
    for (slip, text) in SLIPS {
        results.push(booked(seed, *slip, text));
    }
    let unnoticed = results[1..].iter().filter(|good| !**good).count();
    println!("beside: {} mistakes of a rolling card, each by the records alone too: {unnoticed} not noticed", SLIPS.len());
    results.extend(from_files());
    results
}

fn compared(seed: u64, n: u64) -> bool {
    let (mut desk, mut tally) = (Desk::new(LONGEST), Tally::default());
    for index in rolling_streams::indices(n) {
        play(seed, index, None, &mut desk, &mut tally);
    }
    let never = if n < 200 { Vec::new() } else { tally.hits.never(FLOORS) };
    let Tally { streams, whole, calls, .. } = tally;
    let rollovers = tally.hits.of("rollover");
    let line = format!("{streams} rolling streams ({whole} also against a plain core), {calls} calls, {rollovers} rollovers");
    tell::compared(&line, seed, "", &tally.differences, &never)
}

fn noticed(seed: u64, slip: Slip, text: &str) -> bool {
    let (mut desk, mut tally) = (Desk::new(LONGEST), Tally::default());
    for index in rolling_streams::indices(FOR_A_SLIP) {
        play(seed, index, Some(slip), &mut desk, &mut tally);
        if !tally.differences.is_empty() {
            break;
        }
    }
    tell::noticed(&format!("{slip:?}: {text}"), tally.differences.first().map(|text| tell::place(text)), "")
}

/// The books find a mistake of the second program without the core.
fn booked(seed: u64, slip: Slip, text: &str) -> bool {
    let found = rolling_streams::indices(FOR_A_SLIP)
        .find_map(|index| Some(format!("rolling stream {index}, {}", booked_in(seed, index, slip)?)));
    tell::noticed(&format!("{slip:?}: {text}"), found.as_deref(), " by the records alone")
}

/// In which call of a stream, and by what.
fn booked_in(seed: u64, index: u64, slip: Slip) -> Option<String> {
    let (mut model, _) = Rolling::fresh_by(&card::channel_name(), slip.rules(), slip.counting());
    let mut books = RollingBooks::default();
    for (at, call) in rolling_streams::stream(seed, index).calls.iter().enumerate() {
        let rooms = [OUT - 1, OUT];
        for room in &rooms[usize::from(at % 13 != 5)..] {
            let said = ask_model(&mut model, call, *room);
            let kept = books.call(call, *room, &said).and_then(|()| books.due(due(&model)));
            if let Err(found) = kept {
                return Some(format!("call {}, {found}", at + 1));
            }
        }
    }
    None
}

/// The rolling cards' scenarios, against the core.
fn from_files() -> Vec<bool> {
    let mut results = Vec::new();
    for path in &run_scenarios::paths() {
        let name = path.rsplit('/').next().unwrap_or(path);
        match scenario_of(path) {
            Ok(None) => continue,
            Ok(Some(calls)) => {
                println!("ok {name} (a rolling card: the archive, {calls} calls)");
                results.push(true);
            }
            Err(text) => {
                println!("FAILED {name}: {text}");
                results.push(false);
            }
        }
    }
    if results.is_empty() {
        println!("FAILED: no rolling card's scenario");
        results.push(false);
    }
    results
}

fn scenario_of(path: &str) -> Result<Option<usize>, String> {
    let text = std::fs::read_to_string(path).map_err(|e| e.to_string())?;
    let steps = scenario::parse(&text)?;
    if !scenario::is_rolling(&steps) {
        return Ok(None);
    }
    let (mut core, _) = RollingSplicer::fresh(&card::channel_name());
    let mut out = vec![0; OUT];
    for (step, call) in steps.iter().zip(scenario::rolling_calls(&steps)?) {
        let said = ask_core(&mut core, &call, &mut out);
        let shown = match said.refused {
            0 => said.written,
            number => vec![0x45, number],
        };
        if shown != step.expected {
            return Err(format!("line {}: {}", step.line, step.text));
        }
    }
    Ok(Some(steps.len()))
}
