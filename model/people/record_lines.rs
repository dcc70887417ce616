//! Records as lines for people, and output bytes taken apart.

pub use rules::bytes::{all_bytes, Record, Shown, What};
use rules::bytes::{half, NO_RESULT};

/// What has a line for people.
pub trait Line {
    fn line(&self) -> String;
}

/// The message's name in J.280, its result, and its fields as words.
fn words_of(what: &What) -> (&'static str, u16, String) {
    match what {
        What::General { result } => ("General_Response", *result, String::new()),
        What::Init { result, revision, name } => {
            let fields = format!(" revision={revision} name={}", name_text(name));
            ("Init_Response", *result, fields)
        }
        What::Alive { result, state, id, seconds, micros } => {
            let id = number(*id);
            let fields = format!(" state={state} id={id} time={seconds}.{micros:06}");
            ("Alive_Response", *result, fields)
        }
        What::Splice { result, id } => ("Splice_Response", *result, id_word(*id)),
        What::Complete { result, id, flag, bitrate, played } => {
            let id = id_word(*id);
            let fields = format!("{id} flag={flag} bitrate={bitrate} played={played}");
            ("SpliceComplete_Response", *result, fields)
        }
        What::Abort { result, id } => ("Abort_Response", *result, id_word(*id)),
        What::Cue { seconds, micros, section } => {
            let (time, section) = (cue_time(*seconds, *micros), packed(section));
            let fields = format!(" time={time} section={section}");
            ("Cue_Request", NO_RESULT, fields)
        }
        What::Config { result, name, hardware, map } => {
            let (name, hardware) = (name_text(name), packed(hardware));
            let fields = format!(" name={name} hardware={hardware} map={}", packed(map));
            ("GetConfig_Response", *result, fields)
        }
        What::Extended { result, id, shown } => {
            let mut fields = id_word(*id);
            if let Some(s) = shown {
                let event = number(s.event);
                fields += &format!(" event={event} result={} played={}", s.result, s.played);
            }
            ("ExtendedData_Response", *result, fields)
        }
    }
}

/// In the words of a scenario's expected line.
impl Line for Record {
    fn line(&self) -> String {
        let (kind, result, fields) = words_of(&self.what);
        if result == NO_RESULT {
            return format!("{} {kind}{fields}", self.conn);
        }
        format!("{} {kind} {}{fields}", self.conn, named(result))
    }
}

/// The time of a cue: all ones are none.
pub fn cue_time(seconds: u32, micros: u32) -> String {
    match (seconds, micros) {
        (0xFFFF_FFFF, 0xFFFF_FFFF) => "none".to_string(),
        (_, 0..=999_999) => format!("{seconds}.{micros:06}"),
        _ => format!("{seconds}:{micros}"),
    }
}

fn id_word(id: u32) -> String {
    format!(" id={}", number(id))
}

/// One thing found in the card program's output.
#[derive(Clone, Debug, PartialEq, Eq)]
pub enum Item {
    Record(Record),
    Refused(u8),
    /// Bytes that are no record of 01 (a wrong size, field or mark, or a cut record).
    Strange(Vec<u8>),
}

/// Takes output bytes apart. What cannot be read ends up as `Strange`.
pub fn items(output: &[u8]) -> Vec<Item> {
    let mut list = Vec::new();
    let mut rest = output;
    while !rest.is_empty() {
        let (item, length) = first_item(rest);
        list.push(item);
        rest = &rest[length..];
    }
    list
}

fn first_item(rest: &[u8]) -> (Item, usize) {
    if rest[0] == 0x45 && rest.len() >= 2 {
        return (Item::Refused(rest[1]), 2);
    }
    if rest[0] == 0x52 && rest.len() >= 10 {
        let length = 10 + usize::from(half(rest, 4));
        if rest.len() >= length {
            let item = match record_of(&rest[..length]) {
                Some(record) => Item::Record(record),
                None => Item::Strange(rest[..length].to_vec()),
            };
            return (item, length);
        }
    }
    (Item::Strange(rest.to_vec()), rest.len())
}

/// The record with exactly these bytes, if there is one: only one that writes these very bytes was read in full.
fn record_of(bytes: &[u8]) -> Option<Record> {
    let what = what_of(half(bytes, 2), half(bytes, 6), &bytes[10..])?;
    let record = Record { conn: bytes[1], what };
    (record.bytes() == bytes).then_some(record)
}

/// The message of this MessageID, Result and data.
fn what_of(id: u16, result: u16, data: &[u8]) -> Option<What> {
    let half = |at: usize| Some(u16::from_be_bytes(data.get(at..at + 2)?.try_into().ok()?));
    let word = |at: usize| Some(u32::from_be_bytes(data.get(at..at + 4)?.try_into().ok()?));
    let name = |at: usize| data.get(at..at + 32)?.try_into().ok();
    Some(match id {
        0x0000 => What::General { result },
        0x0002 => What::Init { result, revision: half(0)?, name: name(2)? },
        0x0004 if data.len() == 4 => What::Extended { result, id: word(0)?, shown: None },
        0x0004 => {
            let shown = Shown { event: word(10)?, result: half(14)?, played: word(16)? };
            What::Extended { result, id: word(0)?, shown: Some(shown) }
        }
        0x0006 => What::Alive { result, state: word(0)?, id: word(4)?, seconds: word(8)?, micros: word(12)? },
        0x0008 => What::Splice { result, id: word(0)? },
        0x0009 => {
            let (flag, bitrate, played) = (*data.get(4)?, word(5)?, word(9)?);
            What::Complete { result, id: word(0)?, flag, bitrate, played }
        }
        0x000F => What::Abort { result, id: word(0)? },
        0x000C => What::Cue { seconds: word(0)?, micros: word(4)?, section: data[8..].to_vec() },
        0x000B => {
            let end = 34 + usize::from(half(32)?);
            let (hardware, map) = (data.get(32..end)?.to_vec(), data.get(end..)?.to_vec());
            What::Config { result, name: name(0)?, hardware, map }
        }
        _ => return None,
    })
}

impl Line for Item {
    fn line(&self) -> String {
        match self {
            Item::Record(record) => record.line(),
            Item::Refused(n) => format!("refused {n}"),
            Item::Strange(bytes) => format!("bytes {}", hex(bytes)),
        }
    }
}

/// A result number with its name from J.280, Appendix I.
pub fn named(result: u16) -> String {
    format!("{result} ({})", result_name(result))
}

fn result_name(result: u16) -> &'static str {
    match result {
        100 => "Successful Response",
        101 => "Unknown Failure",
        102 => "Invalid Version",
        103 => "Access Denied",
        104 => "Invalid/Unknown ChannelName",
        109 => "Splice Collision",
        110 => "No Insertion Channel Found",
        112 => "Splice_Request Was Too Late",
        114 => "Splice Queue Full",
        116 => "Insertion Aborted",
        117 => "Invalid Cue Message",
        120 => "Unknown MessageID",
        121 => "Invalid SessionID",
        123 => "Invalid Request Message data( )",
        125 => "Channel Override",
        _ => "no name in 01's list",
    }
}

/// The value 0xFFFFFFFF is written in hexadecimal, every other number in decimal.
pub fn number(value: u32) -> String {
    if value == 0xFFFF_FFFF {
        "0xFFFFFFFF".to_string()
    } else {
        value.to_string()
    }
}

/// A name up to its first zero byte, quoted; bytes behind the zero are shown if not all zero.
pub fn name_text(name: &[u8]) -> String {
    let end = name.iter().position(|b| *b == 0).unwrap_or(name.len());
    let text: String = name[..end].iter().flat_map(|b| b.escape_ascii()).map(char::from).collect();
    let rest = &name[end..];
    if rest.is_empty() {
        format!("\"{text}\" (no zero byte)")
    } else if rest.iter().any(|b| *b != 0) {
        format!("\"{text}\" junk={}", hex(&rest[1..]))
    } else {
        format!("\"{text}\"")
    }
}

/// Hexadecimal without blanks, as a word of a scenario.
fn packed(bytes: &[u8]) -> String {
    hex(bytes).replace(' ', "")
}

pub fn hex(bytes: &[u8]) -> String {
    let list: Vec<String> = bytes.iter().map(|b| format!("{b:02X}")).collect();
    list.join(" ")
}
