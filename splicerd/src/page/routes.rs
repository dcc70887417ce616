//! What is answered to which request.

use super::request::{reason, Request};
use super::{metrics, state, Answer, Body};
use crate::clock::Kind;
use crate::cues::{self, Cue};
use crate::hall::Hall;
use crate::time;
use serde_json::{json, Value};
use std::path::Path;

const JSON: &str = "application/json";
const TEXT: &str = "text/plain; charset=utf-8";
const INDEX: &str = include_str!("index.html");

/// A status with its words.
pub fn plain(status: u16) -> Answer {
    Answer { status, kind: TEXT, body: Body::Bytes(format!("{status} {}\n", reason(status)).into_bytes()) }
}

fn json(status: u16, value: &Value) -> Answer {
    Answer { status, kind: JSON, body: Body::Bytes(format!("{value}\n").into_bytes()) }
}

fn wrong(status: u16, why: &str) -> Answer {
    json(status, &json!({ "error": why }))
}

pub fn answer(request: &Request<'_>, hall: &mut Hall, folder: Option<&Path>) -> Answer {
    let path = request.path.split('?').next().unwrap_or_default();
    match (request.method, path) {
        ("GET", "/") => Answer { status: 200, kind: "text/html; charset=utf-8", body: Body::Bytes(INDEX.into()) },
        ("GET", "/state") => json(200, &all(hall)),
        ("GET", "/events") => {
            let first = format!("data: {}\n\n", all(hall));
            Answer { status: 200, kind: "text/event-stream", body: Body::Events(first) }
        }
        ("GET", "/metrics") => {
            let body = Body::Bytes(metrics::of(hall).into_bytes());
            Answer { status: 200, kind: "text/plain; version=0.0.4; charset=utf-8", body }
        }
        ("GET", _) if path.starts_with("/recording/") => recording(&path[11..], folder).unwrap_or_else(|| plain(404)),
        ("POST", "/clock") => clock(request.body, hall),
        ("POST", "/cue") => cue(request.body, hall),
        (_, "/" | "/state" | "/events" | "/metrics" | "/clock" | "/cue") => plain(405),
        _ => plain(404),
    }
}

fn all(hall: &mut Hall) -> Value {
    let every: Vec<usize> = (0..hall.channels.len()).collect();
    state::of(hall, &every)
}

/// A recording of the folder, as long as it is now. Names of recordings have no other letters, so no other file is reached.
fn recording(name: &str, folder: Option<&Path>) -> Option<Answer> {
    let name = String::from_utf8(cues::unescaped(name)?).ok()?;
    let plain = |byte: u8| byte.is_ascii_alphanumeric() || b"-_%.".contains(&byte);
    if !name.ends_with(".rec") || name.starts_with('.') || !name.bytes().all(plain) {
        return None;
    }
    let file = std::fs::File::open(folder?.join(name)).ok()?;
    let found = file.metadata().ok()?;
    let body = found.is_file().then_some(Body::File(file, found.len()))?;
    Some(Answer { status: 200, kind: "application/octet-stream", body })
}

fn number(value: &Value, key: &str) -> Option<u64> {
    value.get(key)?.as_u64()
}

/// Seconds and MicroSeconds, as a body gives them.
fn instant(value: &Value) -> Option<(u32, u32)> {
    Some((number(value, "seconds")?.try_into().ok()?, number(value, "micros")?.try_into().ok()?))
}

/// Moves a clock that is moved by hand.
fn clock(body: &[u8], hall: &mut Hall) -> Answer {
    let Some((seconds, micros)) = serde_json::from_slice(body).ok().and_then(|value| instant(&value)) else {
        return wrong(400, "a body is {\"seconds\":N,\"micros\":N}");
    };
    if micros > 999_999 {
        return wrong(400, "micros above 999,999");
    }
    if hall.clock.kind() != Kind::Manual {
        return wrong(409, "the clock is not moved by hand: --clock manual");
    }
    let to = time::whole(seconds, micros);
    if !hall.clock.set(to) {
        return wrong(409, "earlier than the clock");
    }
    hall.bring_all(to);
    json(200, &json!({"seconds": seconds, "micros": micros}))
}

/// Hands a section of cues in.
fn cue(body: &[u8], hall: &mut Hall) -> Answer {
    let read = |value: &Value| {
        let text = |key| Some(value.get(key)?.as_str()?.to_owned());
        let (channel, section) = (text("channel")?.into_bytes(), cues::bytes(&text("section")?)?);
        Some(Cue { time: 0, channel, section, pts: number(value, "pts")?, at: instant(value)? })
    };
    let Some(cue) = serde_json::from_slice(body).ok().and_then(|value| read(&value)) else {
        return wrong(400, "a body is {\"channel\":NAME,\"section\":HEX or BASE64,\"pts\":N,\"seconds\":N,\"micros\":N}");
    };
    let now = hall.now();
    match hall.cue(&cue, now) {
        None => wrong(404, "no such channel"),
        Some(Err(refusal)) => json(422, &json!({"refused": refusal.number(), "error": refusal.text()})),
        Some(Ok(written)) => json(200, &json!({ "written": written })),
    }
}
