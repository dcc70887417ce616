//! The state and all that is read after each call, as lines of numbers: for a program that knows nothing of this one to be held to.

use crate::gen::rolling_streams::{indices, stream};
use crate::people::card;
use crate::people::looks::Reads;
use crate::people::rolling::{Call, Rolling};
use crate::rules::{Session, Splicer, State, ROOM};

fn hex(bytes: &[u8]) -> String {
    let digits: String = bytes.iter().map(|b| format!("{b:02X}")).collect();
    format!("-{digits}")
}

fn words(list: &[u64]) -> String {
    list.iter().map(u64::to_string).collect::<Vec<_>>().join(",")
}

fn pair(low: u64, high: u64) -> u64 {
    low | high << 32
}

/// "1 and the session on air; or 0".
fn air(session: &Option<Session>) -> [u64; 9] {
    let Some(s) = session else { return [0; 9] };
    [1, s.conn.into(), s.id.into(), s.start, s.end, s.played, s.event.into(), s.access.into(), s.mux.into()]
}

/// A row of seven words: two numbers of 32 bits in each of the last four.
fn held(s: &Session) -> [u64; 7] {
    let state = match s.state {
        State::OnAir => 1,
        State::Covered => 2,
        State::Waiting => 3,
    };
    [
        s.start,
        s.end,
        s.played,
        pair(s.conn.into(), s.id.into()),
        pair(s.event.into(), s.prior.into()),
        pair(s.access.into(), s.overrides.into()),
        pair(s.mux.into(), state),
    ]
}

/// Output, clock, primary time, connections, Hardware_Configs, places shifted, and the reads.
fn line(s: &Splicer, output: &[u8]) -> String {
    let reads = Reads::of(s);
    // one that is closed counts as such, whatever it was
    let links: Vec<u64> = (0..4).map(|c| u64::from(s.open[c]) * (1 + u64::from(s.initialised[c]))).collect();
    let hardware: Vec<String> = s.hardware.iter().map(|h| hex(h)).collect();
    let due = match reads.due {
        None => [0; 4],
        Some((instant, None)) => [1, instant, 0, 0],
        Some((instant, Some((seconds, micros)))) => [2, instant, seconds.into(), micros.into()],
    };
    let row = |r: &Option<crate::lately::Ended>| {
        r.map_or([0; 5], |e| [e.conn.into(), e.id.into(), e.event.into(), e.result.into(), e.played.into()])
    };
    let rows: Vec<u64> = reads.rows.iter().flat_map(row).collect();
    let sessions: Vec<u64> = reads.sessions.iter().flat_map(held).collect();
    let numbers = [s.clock, s.primary, s.moved as u64, reads.mux.into(), reads.insertion.into()];
    let lists = [words(&links), words(&air(&reads.air)), words(&due), words(&rows), words(&sessions)];
    [vec![hex(output), words(&numbers)], hardware, lists.to_vec()].concat().join(" ")
}

/// Of the card program's input, a line for each call.
pub fn lines(input: &[u8]) -> String {
    let mut text = String::new();
    run_each(input, |splicer, output| text += &format!("{}\n", line(splicer, output)));
    text
}

fn run_each(input: &[u8], mut each: impl FnMut(&Splicer, &[u8])) {
    rules::card::run(input, &rules::right::RIGHT, |splicer, _, _, output| each(splicer, &output));
}

/// N rolling streams: `fresh` before each, then each call, its room, and what comes of it with the last reading and the step to what
/// is due.
pub fn rolling(seed: u64, n: u64) -> String {
    let mut text = String::new();
    for index in indices(n) {
        let (mut card, _) = Rolling::fresh(&card::channel_name());
        text += "fresh\n";
        for (at, call) in stream(seed, index).calls.iter().enumerate() {
            // too little room now and then, which changes nothing
            let short = at % 13 == 5 && !matches!(call, Call::Plain(_));
            for room in [ROOM - 1, ROOM].into_iter().skip(usize::from(!short)) {
                let output = card::shown(card.make(call, room));
                let last = card.last.map_or("none".to_string(), |reading| reading.to_string());
                let (is, step) = (card.counting.due)(&card);
                let comes = line(&card.splicer, &output);
                text += &format!("{} {room} = {comes} {last} {}\n", told(call), words(&[is.into(), step.into()]));
            }
        }
    }
    text
}

fn told(call: &Call) -> String {
    match call {
        Call::Plain(call) => format!("plain {}", hex(&card::input_bytes(call))),
        Call::Instant { seconds, micros, reading } => format!("instant {seconds} {micros} {reading}"),
        Call::Reading(reading) => format!("reading {reading}"),
    }
}
