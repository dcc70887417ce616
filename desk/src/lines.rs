//! What is said of a call, a record, a request and its end: the words of every list.

use crate::day::{Answer, Day, End, Row, State};
use crate::json::Value;
use crate::message;
use crate::recording::{Call, Item};
use crate::texts;
use crate::time::{seconds, Clock, TICK};

/// A record or refusal.
pub struct Told {
    pub connection: Option<u8>,
    pub name: String,
    pub result: Option<u16>,
    pub words: &'static str,
    pub session: Option<u32>,
    pub fields: Vec<(String, Value)>,
}

/// The SessionID among the fields.
fn session(fields: &[(String, Value)]) -> Option<u32> {
    let own = fields.iter().find(|(name, _)| name == "SessionID");
    match own {
        Some((_, Value::Number(number))) => u32::try_from(*number).ok(),
        _ => None,
    }
}

pub fn record(item: &Item, clock: Clock) -> Told {
    if item.bytes[0] == 0x45 {
        let number = item.bytes[1];
        return Told {
            connection: None,
            name: "refused".to_string(),
            result: Some(number.into()),
            words: texts::refusal(number.into()),
            session: None,
            fields: Vec::new(),
        };
    }
    let message = message::split(&item.bytes[2..]);
    let fields = message::fields(message.id, message.data, clock);
    let result = Some(message.result).filter(|r| *r != 0xFFFF || !message::is_request(message.id));
    Told {
        connection: Some(item.bytes[1]),
        name: message::name(message.id),
        result,
        words: result.map_or("", texts::result),
        session: session(&fields),
        fields,
    }
}

/// A name or a lent section.
pub fn aside(bytes: &[u8]) -> Told {
    let field = |name: &str, value: Value| (name.to_string(), value);
    let (name, fields) = match bytes {
        [0x4E, _, own @ ..] => {
            let own = Value::Text(message::string(own));
            ("name", vec![field("ChannelName", own)])
        }
        _ => {
            let feed = ["primary", "insertion"][usize::from(bytes[1] & 1)];
            let section = Value::Text(message::hex(&bytes[4..]));
            let fields = [
                field("feed", Value::text(feed)),
                field("Length", Value::Number(bytes.len() as u64 - 4)),
                field("TS_program_map_section", section),
            ];
            ("section", fields.to_vec())
        }
    };
    told(None, name.to_string(), None, fields)
}

/// A cue call or a rolling card's: its name and fields.
fn further(call: Call, clock: Clock) -> (String, Vec<(String, Value)>) {
    let field = |name: &str, value: Value| (name.to_string(), value);
    let reading = |reading: u32| field("reading", Value::Number(reading.into()));
    let time = |(s, m): (u32, u32)| field("time", Value::Text(clock.wire(s, m)));
    let (name, fields) = match call {
        Call::Cue(section, pts, at) => {
            let section = Value::Text(message::hex(section));
            let section = field("splice_info_section", section);
            (
                "cue",
                vec![field("PTS", Value::Number(pts)), time(at), section],
            )
        }
        Call::Instant(at, count) => ("instant", vec![time(at), reading(count)]),
        Call::Reading(count) => ("reading", vec![reading(count)]),
        _ => ("", Vec::new()),
    };
    (name.to_string(), fields)
}

pub fn call(call: Option<Call>, clock: Clock) -> Told {
    let mut result = None;
    let (connection, name, fields) = match call {
        None => (None, "before any call".to_string(), Vec::new()),
        Some(Call::Open(conn)) => (Some(conn), "open".to_string(), Vec::new()),
        Some(Call::Close(conn)) => (Some(conn), "close".to_string(), Vec::new()),
        Some(Call::Tick(s, m)) => {
            let time = Value::Text(clock.wire(s, m));
            (None, "tick".to_string(), vec![("time".to_string(), time)])
        }
        Some(Call::Message(conn, bytes)) => {
            let message = message::split(bytes);
            let fields = message::fields(message.id, message.data, clock);
            // a request has all ones here, a server's response a result
            result = Some(message.result).filter(|r| *r != 0xFFFF);
            (Some(conn), message::name(message.id), fields)
        }
        Some(other) => {
            let (name, fields) = further(other, clock);
            (None, name, fields)
        }
    };
    told(connection, name, result, fields)
}

fn told(
    connection: Option<u8>,
    name: String,
    result: Option<u16>,
    fields: Vec<(String, Value)>,
) -> Told {
    Told {
        connection,
        name,
        result,
        words: result.map_or("", texts::result),
        session: session(&fields),
        fields,
    }
}

impl Told {
    pub fn line(&self) -> String {
        let mut text = self.connection.map_or(String::new(), |c| format!("{c} "));
        text += &self.name;
        if let Some(result) = self.result {
            text += &format!(" {result} ({})", self.words);
        }
        text + &message::line(&self.fields)
    }
}

/// How a request came out.
pub fn outcome(row: &Row) -> String {
    let words = match row.answer {
        Answer::Splice(100) => None,
        Answer::Splice(n) => Some(format!("refused, {n}: {}", texts::result(n))),
        Answer::General(n) => Some(format!(
            "refused, General_Response {n}: {}",
            texts::result(n)
        )),
        Answer::House(n) => {
            let why = texts::refusal(n.into());
            Some(format!("the call was refused, {n}: {why}"))
        }
        Answer::None => Some("no answer".to_string()),
    };
    let mut text = words.unwrap_or_else(|| match &row.ended {
        Some(end) => ended(row, end),
        None if row.overdue && row.began.is_some() => "NO END RECORDED".to_string(),
        None if row.overdue => "NEITHER START NOR END RECORDED".to_string(),
        None => match row.state() {
            State::OnAir => "still on air".to_string(),
            State::Covered => "still covered".to_string(),
            _ => "still waiting".to_string(),
        },
    });
    if row.again > 0 {
        text += &format!("; {} further start or end", row.again);
    }
    if row.before {
        text += "; asked for before the recording";
    }
    text
}

fn ended(row: &Row, end: &End) -> String {
    let by = if end.closed {
        "its connection was lost"
    } else {
        "aborted"
    };
    let text = match (end.flag, end.result, end.was) {
        (Some(1), _, _) if row.before && end.result == 100 => "played to its end".to_string(),
        (Some(0), 109, _) => "did not start: collision".to_string(),
        (Some(0), n, _) => format!("did not start, {n}: {}", texts::result(n)),
        (Some(_), _, State::Waiting) => "AN END WITHOUT A START".to_string(),
        (Some(_), 100, _) => "played to its end".to_string(),
        (Some(_), 116, _) => format!("{by} while on air"),
        (Some(_), 125, _) if row.end == Some(end.at) => "its end came while covered".to_string(),
        (Some(_), 125, _) => "overridden for good".to_string(),
        (None, 116, State::Covered) => format!("{by} while covered"),
        (None, 116, _) => format!("{by} while waiting"),
        (None, 109, _) => "evicted, or its prior session was or failed".to_string(),
        (None, 125, _) => "its prior session was overridden".to_string(),
        (_, n, _) => format!("ended, {n}: {}", texts::result(n)),
    };
    match end.played {
        Some(played) if !row.before && u64::from(played) != row.on_air() / TICK => {
            format!(
                "{text}; PlayedDuration {played}, on air {}",
                row.on_air() / TICK
            )
        }
        _ => text,
    }
}

/// The result that stands for a request: its end's, or that of its refusal.
pub fn result(row: &Row) -> Option<u16> {
    match (row.ended, row.answer) {
        (Some(end), _) => Some(end.result),
        (None, Answer::Splice(100)) => None,
        (None, Answer::Splice(n) | Answer::General(n)) => Some(n),
        (None, Answer::House(n)) => Some(n.into()),
        (None, Answer::None) => None,
    }
}

/// ServiceID, or the PIDs.
pub fn source(row: &Row) -> String {
    match row.asked.service {
        Some(0xFFFF) if !row.asked.pids.is_empty() => {
            let pids: Vec<String> = row.asked.pids.iter().map(u64::to_string).collect();
            format!("PIDs {}", pids.join(" "))
        }
        Some(0xFFFF) => "PIDs".to_string(),
        Some(service) => service.to_string(),
        None => "-".to_string(),
    }
}

/// The row of another day for the same request, if it says something else.
pub fn other<'d>(row: &Row, day: &'d Day) -> Option<&'d Row> {
    let same_call = day.rows.iter().find(|own| own.call == row.call);
    same_call.filter(|own| !own.same(row))
}

/// Times on air, as a line.
pub fn times(row: &Row, clock: Clock) -> String {
    let text = |at: Option<u64>| at.map_or("-".to_string(), |at| clock.text(at));
    let (began, ended) = (text(row.began), text(row.ended.map(|e| e.at)));
    let air = row.on_air();
    format!("{began} to {ended}, {} s on air", seconds(air))
}
