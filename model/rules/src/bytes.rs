//! 01, "Bytes": the messages that a splicer writes. Each field stands in the order of its list.

/// One outgoing message and the connection it is for.
#[derive(Clone, Debug, PartialEq, Eq)]
pub struct Record {
    pub conn: u8,
    pub what: What,
}

/// The kinds of outgoing message.
#[rustfmt::skip]
#[derive(Clone, Debug, PartialEq, Eq)]
pub enum What {
    General { result: u16 }, // "General_Response 0x0000: no data."
    Init { result: u16, revision: u16, name: [u8; 32] }, // "0x0002: Revision_Num 2 bytes (value 2), configured ChannelName 32"
    Alive { result: u16, state: u32, id: u32, seconds: u32, micros: u32 }, // "0x0006: State 4, SessionID 4, time 8"
    Splice { result: u16, id: u32 }, // "Splice_Response 0x0008 [..]: SessionID 4"
    Complete { result: u16, id: u32, flag: u8, bitrate: u32, played: u32 }, // "0x0009: SessionID 4, SpliceTypeFlag 1, Bitrate 4"
    Abort { result: u16, id: u32 }, // "Abort_Response 0x000F: SessionID 4"
    /// A cue message (02, CR 7): "both Result fields 0xFFFF".
    Cue { seconds: u32, micros: u32, section: Vec<u8> },
    /// GetConfig_Response (02, CR 6): Hardware_Config with its Length, and the map section.
    Config { result: u16, name: [u8; 32], hardware: Vec<u8>, map: Vec<u8> },
    /// 02, CR 8.
    Extended { result: u16, id: u32, shown: Option<Shown> },
}

/// An ended session in "one descriptor of ours: tag 0x01, length 14, identifier 0x43415244, SpliceEventID
/// 4, result 2, PlayedDuration 4" (02, CR 8).
#[derive(Clone, Copy, Debug, PartialEq, Eq)]
pub struct Shown {
    pub event: u32,
    pub result: u16,
    pub played: u32,
}

impl Shown {
    /// "CARD" in ASCII.
    const IDENTIFIER: u32 = 0x4341_5244;

    fn bytes(self) -> Vec<u8> {
        let mut bytes = vec![0x01, 14];
        bytes.extend(words(&[Shown::IDENTIFIER, self.event]));
        bytes.extend(self.result.to_be_bytes());
        bytes.extend(words(&[self.played]));
        bytes
    }
}

/// "All numbers are big-endian."
pub fn words(list: &[u32]) -> Vec<u8> {
    list.iter().flat_map(|w| w.to_be_bytes()).collect()
}

/// Two bytes of a message as a number.
pub fn half(data: &[u8], at: usize) -> u16 {
    u16::from_be_bytes([data[at], data[at + 1]])
}

/// Four bytes of a message as a number.
pub fn word(data: &[u8], at: usize) -> u32 {
    u32::from_be_bytes([data[at], data[at + 1], data[at + 2], data[at + 3]])
}

/// A request's Result.
pub const NO_RESULT: u16 = 0xFFFF;

impl What {
    /// MessageID, Result and the data bytes.
    pub fn parts(&self) -> (u16, u16, Vec<u8>) {
        match self {
            What::General { result } => (0x0000, *result, Vec::new()),
            What::Init { result, revision, name } => (0x0002, *result, [&revision.to_be_bytes()[..], name].concat()),
            What::Alive { result, state, id, seconds, micros } => (0x0006, *result, words(&[*state, *id, *seconds, *micros])),
            What::Splice { result, id } => (0x0008, *result, words(&[*id])),
            What::Complete { result, id, flag, bitrate, played } => {
                (0x0009, *result, [words(&[*id]), vec![*flag], words(&[*bitrate, *played])].concat())
            }
            What::Abort { result, id } => (0x000F, *result, words(&[*id])),
            What::Cue { seconds, micros, section } => (0x000C, NO_RESULT, [words(&[*seconds, *micros]), section.clone()].concat()),
            What::Config { result, name, hardware, map } => (0x000B, *result, [&name[..], hardware, map].concat()),
            What::Extended { result, id, shown } => {
                (0x0004, *result, [words(&[*id]), shown.map_or(Vec::new(), Shown::bytes)].concat())
            }
        }
    }
}

impl Record {
    /// "Every outgoing message goes [..] after a two-byte mark: 0x52, and the connection it is for"; then MessageID 2,
    /// MessageSize 2, Result 2, Result_Extension 2 ("in answers Result_Extension is 0xFFFF").
    pub fn bytes(&self) -> Vec<u8> {
        let (id, result, data) = self.what.parts();
        let mut bytes = vec![0x52, self.conn];
        bytes.extend(id.to_be_bytes());
        bytes.extend((data.len() as u16).to_be_bytes());
        bytes.extend(result.to_be_bytes());
        bytes.extend([0xFF, 0xFF]);
        bytes.extend(data);
        bytes
    }
}

/// "Every outgoing message goes directly behind the last one in the output buffer".
pub fn all_bytes(records: &[Record]) -> Vec<u8> {
    records.iter().flat_map(|r| r.bytes()).collect()
}
