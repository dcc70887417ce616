//! Messages, records and whole entries of a recording, in words. Bytes that came from the wire are shown as text.

use crate::time;
use serde_json::{json, Value};
use splicer::{message_id, records, texts, Record, Says, HEADER};
use std::fmt::{self, Display, Formatter};

/// A name up to its first zero byte, as text.
pub fn name(bytes: &[u8]) -> String {
    let end = bytes.iter().position(|byte| *byte == 0).unwrap_or(bytes.len());
    text(&bytes[..end])
}

/// Bytes as text: what is not printable in UTF-8 is escaped.
pub fn text(bytes: &[u8]) -> String {
    let lossy = String::from_utf8_lossy(bytes);
    lossy.chars().flat_map(|c| if c.is_control() { c.escape_default().collect::<Vec<_>>() } else { vec![c] }).collect()
}

pub fn hex(bytes: &[u8]) -> String {
    bytes.iter().map(|byte| format!("{byte:02X}")).collect()
}

/// Ticks of 90 kHz in seconds.
struct Ticks(u32);

impl Display for Ticks {
    fn fmt(&self, f: &mut Formatter<'_>) -> fmt::Result {
        let thousandths = (u64::from(self.0) + 45) / 90;
        write!(f, "{}.{:03} s", thousandths / 1000, thousandths % 1000)
    }
}

fn word(data: &[u8], at: usize) -> Option<u32> {
    data.get(at..)?.first_chunk().map(|w| u32::from_be_bytes(*w))
}

/// Seconds and MicroSeconds of a message.
struct Instant(u32, u32);

impl Display for Instant {
    fn fmt(&self, f: &mut Formatter<'_>) -> fmt::Result {
        if self.1 > 999_999 {
            f.write_str("no time")
        } else {
            time::Shown(time::whole(self.0, self.1)).fmt(f)
        }
    }
}

/// What a record says.
pub struct Said<'r>(pub &'r Record<'r>);

impl Display for Said<'_> {
    fn fmt(&self, f: &mut Formatter<'_>) -> fmt::Result {
        let (record, kind) = (self.0, texts::message(self.0.message_id));
        let says = record.says();
        if let Some(Says::Cue { seconds, micros, section }) = says {
            return write!(f, "{kind} for {}: {}", Instant(seconds, micros), hex(section));
        }
        write!(f, "{kind} {} {}", record.result, texts::result(record.result))?;
        match says {
            Some(Says::Init { name: own, .. }) => write!(f, ", channel {}", name(own)),
            Some(Says::Alive { state, session, seconds, micros }) => {
                write!(f, ", {}", texts::state(state))?;
                if session != u32::MAX {
                    write!(f, " of session {session}")?;
                }
                write!(f, ", {}", Instant(seconds, micros))
            }
            Some(Says::Splice { session } | Says::Abort { session } | Says::NotKept { session }) => {
                write!(f, ", session {session}")
            }
            Some(Says::Complete { session, flag: 0, .. }) => write!(f, ", session {session} starts"),
            Some(Says::Complete { session, played, .. }) => write!(f, ", session {session} ends, {} on air", Ticks(played)),
            Some(Says::Ended { session, event, result, played }) => {
                let meaning = texts::result(result);
                write!(f, ", session {session}, event {event}: {result} {meaning}, {} on air", Ticks(played))
            }
            _ if record.message_id == message_id::GET_CONFIG_RESPONSE && record.data.len() > 33 => config(record.data, f),
            _ => Ok(()),
        }
    }
}

fn config(data: &[u8], f: &mut Formatter<'_>) -> fmt::Result {
    let length = usize::from(u16::from_be_bytes([data[32], data[33]]));
    let end = (34 + length).min(data.len());
    write!(f, ", channel {}, hardware {}, map {}", name(&data[..32]), hex(&data[34..end]), hex(&data[end..]))
}

/// The same by its fields.
pub fn record_json(record: &Record<'_>) -> Value {
    let mut value = json!({
        "message": texts::message(record.message_id), "id": record.message_id, "result": record.result,
        "meaning": texts::result(record.result), "data": hex(record.data),
    });
    let fields = match record.says() {
        Some(Says::Init { revision, name: own }) => json!({"revision": revision, "channel": name(own)}),
        Some(Says::Alive { state, session, seconds, micros }) => {
            json!({"state": state, "session": session, "seconds": seconds, "micros": micros})
        }
        Some(Says::Splice { session } | Says::Abort { session } | Says::NotKept { session }) => json!({"session": session}),
        Some(Says::Complete { session, flag, played, .. }) => json!({"session": session, "flag": flag, "played": played}),
        Some(Says::Cue { seconds, micros, section }) => json!({"seconds": seconds, "micros": micros, "section": hex(section)}),
        Some(Says::Ended { session, event, result, played }) => {
            json!({"session": session, "event": event, "ended": result, "played": played})
        }
        _ => json!({}),
    };
    if let (Some(all), Value::Object(more)) = (value.as_object_mut(), fields) {
        all.extend(more);
    }
    value
}

/// What a server asked.
struct Asked<'m>(&'m [u8]);

impl Display for Asked<'_> {
    fn fmt(&self, f: &mut Formatter<'_>) -> fmt::Result {
        let Some((header, data)) = self.0.split_first_chunk::<HEADER>() else {
            return f.write_str("a cut message");
        };
        let id = u16::from_be_bytes([header[0], header[1]]);
        if id > 17 {
            return write!(f, "MessageID 0x{id:04X}");
        }
        f.write_str(texts::message(id))?;
        match id {
            message_id::INIT_REQUEST if data.len() >= 34 => write!(f, " for {}", name(&data[2..34])),
            message_id::ABORT_REQUEST | message_id::EXTENDED_DATA_REQUEST => session(data, f),
            message_id::SPLICE_REQUEST => session(data, f).and_then(|()| splice(data, f)),
            _ => Ok(()),
        }
    }
}

fn session(data: &[u8], f: &mut Formatter<'_>) -> fmt::Result {
    word(data, 0).map_or(Ok(()), |n| write!(f, " session {n}"))
}

/// When and how long; where the streams are named one by one the rest is not shown, nor that of one that is too short.
fn splice(data: &[u8], f: &mut Formatter<'_>) -> fmt::Result {
    let Some((fixed, _)) = data.split_first_chunk::<18>() else {
        return Ok(());
    };
    let at = |place: usize| word(data, place).unwrap_or_default();
    let by_pid = fixed[16..] == [0xFF, 0xFF];
    if !by_pid && data.len() < 32 {
        return Ok(());
    }
    match at(4) {
        u32::MAX => write!(f, " at {}", Instant(at(8), at(12)))?,
        prior => write!(f, " behind {prior}")?,
    }
    if by_pid {
        return f.write_str(", streams by PID");
    }
    let over = if data[31] == 1 { ", may override" } else { "" };
    write!(f, " for {}, event {}, access {}{over}", Ticks(at(18)), at(22), data[30])
}

/// A call of a recording and its records.
pub struct Entry<'e>(pub &'e [u8]);

impl Display for Entry<'_> {
    fn fmt(&self, f: &mut Formatter<'_>) -> fmt::Result {
        let answer = call(self.0, f)?;
        if let [0x45, number] = answer {
            write!(f, "; refused {number}: {}", texts::refusal(u32::from(*number)))?;
        }
        for record in records(answer) {
            write!(f, "; to {}: {}", record.connection, Said(&record))?;
        }
        Ok(())
    }
}

/// Writes the call in words; gives what follows it.
fn call<'e>(entry: &'e [u8], f: &mut Formatter<'_>) -> Result<&'e [u8], fmt::Error> {
    let rest = |from: usize| Ok(entry.get(from..).unwrap_or_default());
    match entry {
        [0x4F, c, ..] => write!(f, "open {c}").and(rest(2)),
        [0x43, c, ..] => write!(f, "close {c}").and(rest(2)),
        [0x4D, c, message @ ..] => {
            let size = message.get(2..4).map_or(0, |s| usize::from(u16::from_be_bytes([s[0], s[1]])));
            let whole = if size > 4088 { HEADER } else { HEADER + size };
            write!(f, "from {c}: {}", Asked(&message[..whole.min(message.len())])).and(rest(2 + whole))
        }
        [0x54, _, time @ ..] => {
            let at = |place: usize| word(time, place).unwrap_or_default();
            write!(f, "tick to {}", Instant(at(0), at(4))).and(rest(10))
        }
        [0x51, _, a, b, section @ ..] => {
            let length = usize::from(u16::from_be_bytes([*a, *b])).min(section.len());
            write!(f, "cue {}", hex(&section[..length])).and(rest(4 + length + 16))
        }
        _ => write!(f, "bytes {}", hex(entry)).and(Ok(&[])),
    }
}

#[cfg(test)]
mod tests {
    use super::*;
    use crate::wire;

    fn entry(entry: &[u8]) -> String {
        Entry(entry).to_string()
    }

    fn request(message: &[u8]) -> String {
        Asked(message).to_string()
    }

    #[test]
    fn entries_in_words() {
        let refused = [0x43, 0, 0x45, 7];
        assert_eq!(entry(&refused), "close 0; refused 7: not open");
        let mut alive = vec![0x4D, 1];
        alive.extend(wire::alive(0, 0));
        alive.extend([0x52, 1, 0, 0, 0, 0, 0, 103, 255, 255]);
        assert_eq!(entry(&alive), "from 1: Alive_Request; to 1: General_Response 103 Access Denied");
        assert_eq!(entry(&[0x54, 0, 0, 0, 0, 1, 0, 0, 0, 2]), "tick to 1970-01-01T00:00:01.000002Z");
    }

    #[test]
    fn names_are_text() {
        assert_eq!(name(b"<b>\x07\0junk"), "<b>\\u{7}");
        assert_eq!(request(&wire::init(b"CH2", b"")), "Init_Request for CH2");
    }

    #[test]
    fn a_request_for_a_spot() {
        let asked = wire::Splice {
            session: 9,
            prior: u32::MAX,
            seconds: 10,
            micros: 0,
            duration: 2_700_000,
            event: 3,
            access: 5,
            over: true,
            mux: None,
        };
        let said = "Splice_Request session 9 at 1970-01-01T00:00:10.000000Z for 30.000 s, event 3, access 5, may override";
        assert_eq!(request(&wire::splice(&asked)), said);
    }
}
