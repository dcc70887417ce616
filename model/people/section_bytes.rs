//! Sections of SCTE 35 (docs/SCTE35.md), made from their fields.

use crate::people::cue_call::{crc, section_length};

/// splice_time(), with a pts_time or without.
pub type Time = Option<u64>;

#[derive(Clone, Debug, PartialEq, Eq)]
pub enum Command {
    Null,
    Insert(Insert),
    TimeSignal(Time),
    /// Any other splice_command_type, and its bytes.
    Other(u8, Vec<u8>),
}

/// A splice_insert; cancelled it has its splice_event_id only.
#[derive(Clone, Debug, PartialEq, Eq)]
pub struct Insert {
    pub event: u32,
    pub cancelled: bool,
    pub out: bool,
    pub immediate: bool,
    /// The splice_time() in program mode.
    pub time: Time,
    /// Component mode: each component's tag and splice_time().
    pub components: Option<Vec<(u8, Time)>>,
    /// auto_return and duration.
    pub duration: Option<(bool, u64)>,
    pub program: u16,
    pub avail: u8,
    pub avails: u8,
}

/// A section's fields. The lengths and CRC_32 are its own where no others are asked for.
#[derive(Clone, Debug, PartialEq, Eq)]
pub struct Section {
    pub table: u8,
    /// section_syntax_indicator, private_indicator and two reserved bits.
    pub indicators: u8,
    pub protocol: u8,
    pub encrypted: bool,
    pub algorithm: u8,
    pub adjustment: u64,
    pub cw_index: u8,
    pub tier: u16,
    pub length: Option<u16>,
    pub command: Command,
    pub loop_length: Option<u16>,
    pub descriptors: Vec<u8>,
    pub stuffing: Vec<u8>,
}

impl Section {
    /// As most senders write one.
    pub fn new(command: Command) -> Section {
        Section {
            table: 0xFC,
            indicators: 0b0011,
            protocol: 0,
            encrypted: false,
            algorithm: 0,
            adjustment: 0,
            cw_index: 0,
            tier: 0xFFF,
            length: None,
            command,
            loop_length: None,
            descriptors: Vec::new(),
            stuffing: Vec::new(),
        }
    }

    pub fn bytes(&self) -> Vec<u8> {
        let command = self.command.bytes();
        let length = self.length.unwrap_or(command.len() as u16) & 0xFFF;
        let mut bytes = vec![self.table, self.indicators << 4, 0, self.protocol];
        let high = (self.adjustment >> 32) as u8 & 1;
        bytes.push(u8::from(self.encrypted) << 7 | (self.algorithm & 0x3F) << 1 | high);
        bytes.extend((self.adjustment as u32).to_be_bytes());
        bytes.push(self.cw_index);
        let tier = u32::from(self.tier & 0xFFF) << 12 | u32::from(length);
        bytes.extend(&tier.to_be_bytes()[1..]);
        bytes.push(self.command.kind());
        bytes.extend(command);
        let loop_length = self.loop_length.unwrap_or(self.descriptors.len() as u16);
        bytes.extend(loop_length.to_be_bytes());
        bytes.extend(&self.descriptors);
        bytes.extend(&self.stuffing);
        bytes.extend([0; 4]);
        remade(bytes)
    }
}

/// The bytes with their own section_length, as far as 12 bits tell it, and a right CRC_32.
pub fn remade(mut bytes: Vec<u8>) -> Vec<u8> {
    if bytes.len() < 3 {
        return bytes;
    }
    let length = bytes.len() - 3;
    bytes[1] = bytes[1] & 0xF0 | (length >> 8) as u8 & 0x0F;
    bytes[2] = length as u8;
    closed(bytes)
}

/// The bytes with a right CRC_32 in the last four.
pub fn closed(mut bytes: Vec<u8>) -> Vec<u8> {
    let Some(end) = bytes.len().checked_sub(4) else {
        return bytes;
    };
    let crc = crc(&bytes[..end]);
    bytes[end..].copy_from_slice(&crc.to_be_bytes());
    bytes
}

impl Command {
    pub fn kind(&self) -> u8 {
        match self {
            Command::Null => 0x00,
            Command::Insert(_) => 0x05,
            Command::TimeSignal(_) => 0x06,
            Command::Other(kind, _) => *kind,
        }
    }

    pub fn bytes(&self) -> Vec<u8> {
        match self {
            Command::Null => Vec::new(),
            Command::Insert(insert) => insert.bytes(),
            Command::TimeSignal(time) => time_bytes(*time),
            Command::Other(_, bytes) => bytes.clone(),
        }
    }
}

/// Reserved bits are 1.
fn time_bytes(time: Time) -> Vec<u8> {
    time.map_or(vec![0x7F], |pts| of_33(0xFE, pts))
}

/// Seven bits and a number of 33.
fn of_33(bits: u8, number: u64) -> Vec<u8> {
    let mut bytes = vec![bits & 0xFE | (number >> 32) as u8 & 1];
    bytes.extend((number as u32).to_be_bytes());
    bytes
}

impl Insert {
    pub fn new(event: u32) -> Insert {
        Insert {
            event,
            cancelled: false,
            out: true,
            immediate: false,
            time: None,
            components: None,
            duration: None,
            program: 0,
            avail: 0,
            avails: 0,
        }
    }

    pub fn bytes(&self) -> Vec<u8> {
        let mut bytes = self.event.to_be_bytes().to_vec();
        bytes.push(u8::from(self.cancelled) << 7 | 0x7F);
        if self.cancelled {
            return bytes;
        }
        let flag = |set: bool, place: u8| u8::from(set) << place;
        bytes.push(
            flag(self.out, 7)
                | flag(self.components.is_none(), 6)
                | flag(self.duration.is_some(), 5)
                | flag(self.immediate, 4)
                | 0x0F,
        );
        match &self.components {
            None if !self.immediate => bytes.extend(time_bytes(self.time)),
            None => {}
            Some(list) => {
                bytes.push(list.len() as u8);
                for (tag, time) in list {
                    bytes.push(*tag);
                    if !self.immediate {
                        bytes.extend(time_bytes(*time));
                    }
                }
            }
        }
        if let Some((auto, ticks)) = self.duration {
            bytes.extend(of_33(flag(auto, 7) | 0x7E, ticks));
        }
        bytes.extend(self.program.to_be_bytes());
        bytes.extend([self.avail, self.avails]);
        bytes
    }
}

/// Whether its length is what section_length says.
pub fn is_whole(section: &[u8]) -> bool {
    section.len() >= 3 && section.len() == 3 + section_length(section)
}
