//! The state of channels as JSON; its keys stand in docs/BENCH.md.

use crate::channel::Channel;
use crate::clock::Kind;
use crate::hall::Hall;
use crate::referee::Referee;
use crate::time;
use serde_json::{json, Value};
use splicer::{texts, Session, State};

/// Ninths of a microsecond, which is how the core counts, as microseconds rounded down.
const NINTH: u64 = 9;

/// That of these channels.
pub fn of(hall: &mut Hall, which: &[usize]) -> Value {
    let now = hall.now();
    let kind = match hall.clock.kind() {
        Kind::Utc => "utc",
        Kind::From { .. } => "from",
        Kind::Manual => "manual",
    };
    let speed = match hall.clock.kind() {
        Kind::From { speed, .. } => speed as f64 / time::SECOND as f64,
        Kind::Utc => 1.0,
        Kind::Manual => 0.0,
    };
    let channels: Vec<Value> = which.iter().map(|at| channel(&hall.channels[*at], now)).collect();
    json!({
        "version": env!("CARGO_PKG_VERSION"),
        "clock": {"kind": kind, "speed": speed, "micros": now, "text": time::shown(now), "held": hall.clock.held()},
        "unnamed": hall.waiting.len(),
        "limits": {"own": 10, "connection": 20, "all": 64},
        "channels": channels,
    })
}

fn channel(channel: &Channel, now: u64) -> Value {
    let core = channel.at(now);
    let sessions: Vec<Session> = core.sessions().collect();
    let of = |state: State| -> Vec<Value> { sessions.iter().filter(|s| s.state == state).map(session).collect() };
    let (on_air, covered, waiting) = (of(State::OnAir).pop(), of(State::Covered), of(State::Waiting));
    let primary = core.primary() - channel.day_begin(now);
    let recording = channel.recording.as_ref().map(|r| {
        let file = r.path.file_name().map(|name| name.to_string_lossy().into_owned());
        json!({"file": file, "bytes": r.bytes, "error": r.error})
    });
    json!({
        "name": channel.shown,
        "clock": {"micros": channel.clock, "text": time::shown(channel.clock)},
        "on_air": on_air,
        "covered": covered,
        "waiting": waiting,
        "counts": core.waiting(),
        "connections": connections(channel),
        "ended": core.rows().iter().flatten().map(row).collect::<Vec<_>>(),
        "referee": referee(&channel.referee),
        "recording": recording,
        "primary_today_micros": primary / NINTH,
        "calls": channel.recent.iter().rev().map(|(at, entry)| json!({"time": time::shown(*at), "text": entry.text()})).collect::<Vec<_>>(),
    })
}

fn referee(referee: &Referee) -> Value {
    json!({"text": referee.to_string(), "differs": referee.differs(), "judges": referee.judges(), "good": referee.good()})
}

fn session(session: &Session) -> Value {
    json!({
        "connection": session.connection, "session": session.session, "event": session.event, "prior": session.prior,
        "access": session.access, "override": session.overrides, "mux": session.mux,
        "start_micros": session.start / NINTH, "end_micros": session.end / NINTH, "played_micros": session.played / NINTH,
        "start": time::shown(session.start / NINTH), "end": time::shown(session.end / NINTH),
    })
}

fn row(row: &splicer::Row) -> Value {
    json!({
        "connection": row.connection, "session": row.session, "event": row.event, "result": row.result,
        "meaning": texts::result(row.result as u16), "played_ticks": row.played,
    })
}

fn connections(channel: &Channel) -> Vec<Value> {
    let seats = channel.seats.iter().enumerate();
    let one = |(number, seat): (usize, &Option<crate::channel::Seat>)| {
        let state = match seat {
            None => "free",
            Some(seat) if seat.initialised => "initialised",
            Some(_) => "open",
        };
        json!({"number": number, "state": state, "peer": seat.as_ref().map(|seat| &seat.address)})
    };
    seats.map(one).collect()
}
