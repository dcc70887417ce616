//! J.280's messages by their fields, also those that only document 02 or another splicer uses.

use crate::json::Value;
use crate::texts;
use crate::time::Clock;

/// A message taken apart.
pub struct Message<'m> {
    pub id: u16,
    pub result: u16,
    pub data: &'m [u8],
}

/// A header is there; the data may be missing behind a MessageSize above 4,088.
pub fn split(bytes: &[u8]) -> Message<'_> {
    let half = |at: usize| u16::from_be_bytes([bytes[at], bytes[at + 1]]);
    Message {
        id: half(0),
        result: half(4),
        data: &bytes[8..],
    }
}

pub fn name(id: u16) -> String {
    match id {
        0..=0x11 => texts::message(id).to_string(),
        _ => format!("message 0x{id:04X}"),
    }
}

/// Whether a message asks: its Result is all ones.
pub fn is_request(id: u16) -> bool {
    matches!(id, 1 | 3 | 5 | 7 | 0x0A | 0x0C | 0x0E | 0x10)
}

/// Walks the data. Each step gives nothing where the data end.
struct Walk<'m> {
    rest: &'m [u8],
    clock: Clock,
    fields: Vec<(String, Value)>,
}

impl<'m> Walk<'m> {
    fn bytes(&mut self, n: usize) -> Option<&'m [u8]> {
        let (part, rest) = self.rest.split_at_checked(n)?;
        self.rest = rest;
        Some(part)
    }

    fn value(&mut self, n: usize) -> Option<u32> {
        let part = self.bytes(n)?;
        Some(part.iter().fold(0, |sum, b| sum << 8 | u32::from(*b)))
    }

    fn put(&mut self, name: &str, value: Value) -> Option<()> {
        self.fields.push((name.to_string(), value));
        Some(())
    }

    /// A number of n bytes.
    fn number(&mut self, name: &str, n: usize) -> Option<u32> {
        let value = self.value(n)?;
        self.put(name, Value::number(value))?;
        Some(value)
    }

    fn time(&mut self) -> Option<()> {
        let (seconds, micros) = (self.value(4)?, self.value(4)?);
        let text = self.clock.wire(seconds, micros);
        self.put("time", Value::Text(text))
    }

    /// A name of 32 bytes, up to its first zero.
    fn name(&mut self, name: &str) -> Option<()> {
        let text = string(self.bytes(32)?);
        self.put(name, Value::Text(text))
    }

    /// What is left, if anything.
    fn left(&mut self, name: &str) -> Option<()> {
        let rest = self.bytes(self.rest.len())?;
        if rest.is_empty() {
            return Some(());
        }
        self.put(name, Value::Text(hex(rest)))
    }

    fn hardware(&mut self) -> Option<()> {
        if self.rest.is_empty() {
            return Some(());
        }
        let length = self.number("Length", 2)? as usize;
        let (inside, behind) = self.rest.split_at_checked(length)?;
        self.rest = inside;
        if length < 8 {
            // 02, CR 6: kept and given back whatever its Length
            self.left("Hardware_Config")?;
        } else {
            for name in ["Chassis", "Card", "Port", "Logical_Multiplex_Type"] {
                self.number(name, 2)?;
            }
            self.left("Logical_Multiplex")?;
        }
        self.rest = behind;
        Some(())
    }

    /// 02, CR 8: the card's own descriptor of an ended session, with its end's result; any other as bytes.
    fn ended(&mut self) -> Option<()> {
        if self.rest.len() != 16 || !self.rest.starts_with(b"\x01\x0ECARD") {
            return self.left("descriptors");
        }
        self.bytes(6)?;
        self.number("SpliceEventID", 4)?;
        self.number("EndResult", 2)?;
        self.number("PlayedDuration", 4).map(|_| ())
    }

    /// splice_elementary_stream structures: PIDs and stream types.
    fn streams(&mut self) -> Option<()> {
        self.number("PcrPID", 2)?;
        let count = self.number("PIDCount", 4)?;
        let (mut pids, mut kinds) = (Vec::new(), Vec::new());
        for _ in 0..count.min(4_088) {
            let length = self.value(1)? as usize;
            let inside = self.bytes(length.checked_sub(1)?)?;
            let half = |at: usize| {
                let two = inside.get(at..at + 2)?;
                Some(u16::from_be_bytes([two[0], two[1]]))
            };
            pids.push(Value::number(half(0)?));
            kinds.push(Value::number(half(2)?));
        }
        self.put("PID", Value::List(pids))?;
        self.put("StreamType", Value::List(kinds))
    }

    fn splice(&mut self) -> Option<()> {
        self.number("SessionID", 4)?;
        self.number("PriorSession", 4)?;
        self.time()?;
        if self.number("ServiceID", 2)? == 0xFFFF {
            self.streams()?;
        }
        for name in ["Duration", "SpliceEventID", "PostBlack"] {
            self.number(name, 4)?;
        }
        for name in ["AccessType", "OverridePlaying", "ReturnToPriorChannel"] {
            self.number(name, 1)?;
        }
        self.left("descriptors")
    }

    fn message(&mut self, id: u16) -> Option<()> {
        match id {
            0x0001 => {
                self.number("Revision_Num", 2)?;
                self.name("ChannelName")?;
                self.name("SplicerName")?;
                self.hardware()?;
                self.left("descriptors")
            }
            0x0002 => {
                self.number("Revision_Num", 2)?;
                self.name("ChannelName")
            }
            0x0003 => {
                self.number("SessionID", 4)?;
                self.number("ExtendedDataType", 4).map(|_| ())
            }
            0x0004 => {
                self.number("SessionID", 4)?;
                self.ended()
            }
            0x0005 => self.time(),
            0x0006 => {
                self.number("State", 4)?;
                self.number("SessionID", 4)?;
                self.time()
            }
            0x0007 => self.splice(),
            0x0008 | 0x000E | 0x000F => self.number("SessionID", 4).map(|_| ()),
            _ => self.rarer(id),
        }
    }

    fn rarer(&mut self, id: u16) -> Option<()> {
        match id {
            0x0009 => {
                self.number("SessionID", 4)?;
                self.number("SpliceTypeFlag", 1)?;
                self.number("Bitrate", 4)?;
                self.number("PlayedDuration", 4).map(|_| ())
            }
            0x000B => {
                self.name("ChannelName")?;
                self.hardware()?;
                self.left("TS_program_map_section")
            }
            0x000C => {
                self.time()?;
                self.left("splice_info_section")
            }
            _ => self.left("data"),
        }
    }
}

/// The fields of a message's data. What is not as J.280 and document 01 lay it out is given as
/// bytes.
pub fn fields(id: u16, data: &[u8], clock: Clock) -> Vec<(String, Value)> {
    let mut walk = Walk {
        rest: data,
        clock,
        fields: Vec::new(),
    };
    if walk.message(id).is_some() && walk.rest.is_empty() {
        return walk.fields;
    }
    if data.is_empty() {
        return Vec::new();
    }
    vec![("data".to_string(), Value::Text(hex(data)))]
}

/// The fields as a line; all ones in a number of four bytes is written so.
pub fn line(fields: &[(String, Value)]) -> String {
    let mut text = String::new();
    for (name, value) in fields {
        let value = match value {
            Value::Number(0xFFFF_FFFF) => "0xFFFFFFFF".to_string(),
            Value::Number(state) if name == "State" => {
                let words = u32::try_from(*state).map_or("", texts::state);
                format!("{state} ({words})")
            }
            Value::Text(text) if name == "splice_info_section" => {
                let bytes = model::scenario::hex_bytes(text).unwrap_or_default();
                let words = model::shown::summary(&bytes);
                words.map_or(text.clone(), |words| format!("{text} ({words})"))
            }
            Value::Text(text) if name == "data" && text.len() > 96 => {
                format!("{}.. ({} bytes)", &text[..96], text.len() / 2)
            }
            other => other.plain(),
        };
        text += &format!(" {name}={value}");
    }
    text
}

pub fn string(field: &[u8]) -> String {
    let end = field.iter().position(|b| *b == 0).unwrap_or(field.len());
    let bytes = field[..end].iter().flat_map(|b| b.escape_ascii());
    bytes.map(char::from).collect()
}

pub fn hex(bytes: &[u8]) -> String {
    bytes.iter().map(|b| format!("{b:02x}")).collect()
}

/// What a Splice_Request asks for, as far as it can be read.
#[derive(Clone, Debug, Default)]
pub struct Asked {
    pub session: Option<u32>,
    pub prior: Option<u32>,
    pub time: (u32, u32),
    pub service: Option<u32>,
    pub pids: Vec<u64>,
    pub duration: Option<u32>,
    pub event: Option<u32>,
    pub access: u8,
    pub overrides: bool,
}

/// Reads a Splice_Request's data.
pub fn asked(data: &[u8]) -> Asked {
    let mut walk = Walk {
        rest: data,
        clock: Clock::default(),
        fields: Vec::new(),
    };
    let _ = walk.splice();
    let number = |name: &str| match walk.fields.iter().find(|(own, _)| own == name) {
        Some((_, Value::Number(number))) => u32::try_from(*number).ok(),
        _ => None,
    };
    let list = |name: &str| match walk.fields.iter().find(|(own, _)| own == name) {
        Some((_, Value::List(list))) => list.clone(),
        _ => Vec::new(),
    };
    let pid = |value: &Value| match value {
        Value::Number(number) => Some(*number),
        _ => None,
    };
    let word = |at: usize| {
        let four = data.get(at..at + 4);
        four.map_or(0, |w| u32::from_be_bytes([w[0], w[1], w[2], w[3]]))
    };
    Asked {
        session: number("SessionID"),
        prior: number("PriorSession"),
        time: (word(8), word(12)),
        service: number("ServiceID"),
        pids: list("PID").iter().filter_map(pid).collect(),
        duration: number("Duration"),
        event: number("SpliceEventID"),
        access: number("AccessType").map_or(0, |n| n as u8),
        overrides: number("OverridePlaying") == Some(1),
    }
}

#[cfg(test)]
mod tests {
    use super::*;

    fn told(id: u16, data: &[u8]) -> String {
        line(&fields(id, data, Clock { raw: true }))
    }

    #[test]
    fn messages_by_their_fields() {
        let complete = [0, 0, 0, 7, 1, 0, 0, 0, 0, 0, 0x0D, 0xBB, 0xA0];
        let expected = " SessionID=7 SpliceTypeFlag=1 Bitrate=0 PlayedDuration=900000";
        assert_eq!(told(9, &complete), expected);
        assert_eq!(
            told(9, &complete[1..]),
            " data=00000701000000000".to_string() + "00dbba0"
        );
        assert_eq!(told(0, &[]), "");
        assert_eq!(told(0x99, &[1, 2]), " data=0102");
        assert_eq!(told(14, &[255; 4]), " SessionID=0xFFFFFFFF");
        let mut config = [b"CH1".to_vec(), vec![0; 29]].concat();
        config.extend([0, 9, 0, 1, 0, 2, 0, 3, 0, 4, 5, 0x02]);
        let expected = " ChannelName=CH1 Length=9 Chassis=1 Card=2 Port=3 \
                        Logical_Multiplex_Type=4 Logical_Multiplex=05 TS_program_map_section=02";
        assert_eq!(told(11, &config), expected);
        let short = [&config[..32], &[0, 3, 1, 2, 3, 0x02]].concat();
        let expected = " ChannelName=CH1 Length=3 Hardware_Config=010203 TS_program_map_section=02";
        assert_eq!(told(11, &short), expected);
        assert_eq!(
            told(11, &[&config[..32], &[0, 0]].concat()),
            " ChannelName=CH1 Length=0"
        );
        assert_eq!(told(12, &[255; 9]), " time=none splice_info_section=ff");
        // docs/SCTE35.md's second section
        let section = [
            0xFC, 0x30, 0x16, 0x00, 0x01, 0x00, 0x00, 0x00, 0x10, 0x00, 0xFF, 0xF0, 0x05, 0x06,
            0xFF, 0x23, 0x45, 0x67, 0x89, 0x00, 0x00, 0x71, 0x3B, 0x22, 0xBD,
        ];
        let cue = told(12, &[&[255; 8][..], &section].concat());
        let words = "890000713b22bd (time_signal pts_time 4886718345)";
        assert!(cue.ends_with(words), "{cue}");
        assert_eq!(name(0x11), "TearDownFeed_Response");
        assert_eq!(name(0x12), "message 0x0012");
    }

    /// 02, CR 8: "in one descriptor of ours".
    #[test]
    fn an_ended_session() {
        let asked = [0, 0, 0, 7, 255, 255, 255, 255];
        let expected = " SessionID=7 ExtendedDataType=0xFFFFFFFF";
        assert_eq!(told(3, &asked), expected);
        assert_eq!(told(4, &asked[..4]), " SessionID=7");
        let mut shown = [&asked[..4], b"\x01\x0ECARD"].concat();
        shown.extend([0, 0, 0x0F, 0xA1, 0, 116, 0, 0x0D, 0xBB, 0xA0]);
        let expected = " SessionID=7 SpliceEventID=4001 EndResult=116 PlayedDuration=900000";
        assert_eq!(told(4, &shown), expected);
        // another's descriptor
        shown[6] = b'c';
        let bytes = " SessionID=7 descriptors=010e6341524400000fa10074000dbba0";
        assert_eq!(told(4, &shown), bytes);
    }

    /// 02, CR 1: PcrPID, PIDCount and that many structures stand behind ServiceID 0xFFFF.
    #[test]
    fn separate_pids() {
        let mut data = vec![
            0, 0, 0, 9, 255, 255, 255, 255, 0, 0, 0, 5, 0, 0, 0, 6, 255, 255,
        ];
        data.extend([0, 0x31, 0, 0, 0, 2]);
        for pid in [0x31, 0x32] {
            data.extend([21, 0, pid, 0, 2]);
            data.extend([0; 16]);
        }
        data.extend([0, 0, 0, 90, 0, 0, 0, 1, 0, 0, 0, 0, 3, 1, 0]);
        let read = asked(&data);
        assert_eq!(read.pids, [0x31, 0x32]);
        assert_eq!((read.duration, read.event), (Some(90), Some(1)));
        assert_eq!((read.access, read.overrides), (3, true));
        assert_eq!(read.time, (5, 6));
        assert!(told(7, &data).contains("PIDCount=2 PID=49 50 StreamType=2 2 Duration=90"));
        let cut = asked(&data[..6]);
        assert_eq!((cut.session, cut.prior), (Some(9), None));
    }
}
