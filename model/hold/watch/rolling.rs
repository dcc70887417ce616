//! The branches of a rolling card's calls (02, CR 9).

use super::notes::with;
use rules::bytes::{Record, What};
use rules::calls;
use rules::rolling::{self as right, Counting, Rolling};
use rules::state::{Maps, Said, Session, Splicer, State, ROOM};
use rules::times::{ninths, HORIZON, MICROSECOND, NONE, SECOND, TICK};

pub static COUNTING: Counting = Counting { instant, reading, ..right::COUNTING };

fn hit(name: &'static str) {
    with(|watch| watch.rolls.hit(name));
}

fn instant(card: &mut Rolling, time: (u32, u32), reading: u32, room: usize) -> Result<Vec<Record>, u8> {
    let (second, before) = (card.last.is_some(), card.splicer.clone());
    let said = right::instant(card, time, reading, room);
    match said {
        Ok(_) => count_instant(&before, card.splicer.clock),
        Err(2) => hit("instant 2 output buffer too small"),
        Err(8) if second => hit("instant 8 the second with bad MicroSeconds"),
        Err(8) => hit("instant 8 MicroSeconds above 999,999"),
        Err(_) => hit("instant 12 a second one"),
    }
    said
}

fn reading(card: &mut Rolling, reading: u32, room: usize) -> Result<Vec<Record>, u8> {
    let (last, before) = (card.last, card.splicer.clone());
    let said = right::reading(card, reading, room);
    let step = last.map_or(0, |last| right::step(last, reading));
    if room >= ROOM && last.is_some() {
        count_step(step);
    }
    match said {
        Ok(_) => count_reading(&before, card.splicer.clock, last.is_some_and(|last| reading < last)),
        Err(2) => hit("reading 2 output buffer too small"),
        Err(_) if last.is_none() => hit("reading 12 before the instant"),
        Err(_) if step > right::LIMIT => hit("reading 12 a step over 8,100,000"),
        Err(_) => hit("reading 12 past the last second"),
    }
    said
}

pub fn message_with(s: &mut Splicer, conn: u8, bytes: &[u8], maps: &Maps, room: usize) -> Result<Said, u8> {
    let said = calls::message_with(s, conn, bytes, maps, room);
    if let Ok((out, _)) = &said {
        count_message(s.clock, bytes, out);
    }
    said
}

fn count_instant(splicer: &Splicer, until: u64) {
    let due = splicer.next_instant(until).is_some();
    hit(match (due, splicer.sessions.is_empty()) {
        (true, _) => "instant good, with starts or ends due",
        (_, false) => "instant good, before all that wait",
        _ => "instant good",
    });
    if until + SECOND >= HORIZON {
        hit("instant good, in the last second");
    }
}

fn count_step(step: u32) {
    hit(match step {
        0 => "step 0",
        1 => "step 1",
        8_099_999 => "step 8,099,999",
        8_100_000 => "step 8,100,000",
        8_100_001 => "step 8,100,001",
        0x8000_0000 => "step 2^31",
        0xFFFF_FFFF => "step 2^32 - 1",
        _ => "step of another length",
    });
}

fn count_reading(splicer: &Splicer, until: u64, rolled: bool) {
    hit("reading good");
    let due = splicer.next_instant(until).is_some();
    if rolled {
        hit("rollover");
        if due {
            hit("rollover over a start or an end");
        }
        if splicer.on_air().is_some() {
            hit("rollover with one on air");
        }
    }
    if !until.is_multiple_of(MICROSECOND) {
        hit("clock between two microseconds");
    }
    if until + SECOND >= HORIZON {
        hit("clock in the last second");
    }
    if until + TICK >= HORIZON {
        hit("clock in the last tick");
    }
    let times = |s: &Session| match s.state {
        State::Waiting => (s.start, true),
        _ => (s.end, false),
    };
    for (time, start) in splicer.sessions.iter().map(times) {
        let name = match (start, time as i64 - until as i64) {
            (true, -1) => "start a ninth before a reading",
            (true, 0) => "start on a reading",
            (true, 1) => "start a ninth behind a reading",
            (false, -1) => "end a ninth before a reading",
            (false, 0) => "end on a reading",
            (false, 1) => "end a ninth behind a reading",
            _ => continue,
        };
        hit(name);
    }
}

fn count_message(clock: u64, bytes: &[u8], out: &[Record]) {
    let between = !clock.is_multiple_of(MICROSECOND);
    for record in out {
        let name = match record.what {
            What::Alive { .. } if between => "Alive between two microseconds",
            What::Complete { result: 116, .. } if between => "abort on air between two microseconds",
            What::Splice { result, .. } if between => {
                let start = timed_start(bytes);
                let short = |start: u64| (clock + 3 * SECOND).checked_sub(start);
                match (start.and_then(short), result) {
                    (Some(1..=8), 112) => "112 by less than a microsecond",
                    (None, 100) => match start.map(|s| s - clock - 3 * SECOND) {
                        Some(1..=8) => "100 by less than a microsecond",
                        _ => continue,
                    },
                    _ => continue,
                }
            }
            _ => continue,
        };
        hit(name);
    }
}

/// The start of a timed Splice_Request of a whole message.
fn timed_start(bytes: &[u8]) -> Option<u64> {
    let word = |at: usize| Some(u32::from_be_bytes(bytes.get(at..at + 4)?.try_into().ok()?));
    (bytes[..2] == [0, 7] && word(12)? == NONE).then_some(())?;
    Some(ninths(word(16)?, word(20)?))
}
