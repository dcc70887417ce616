//! Sections of SCTE 35 taken apart for people, as far as they can be read.

use crate::people::cue_call::{command_length, crc, COMMAND};
use crate::people::record_lines::hex;
use crate::people::section_bytes::is_whole;
use crate::people::segmentation::{has_parts, seconds, type_name, upid_name, upid_text};

/// A field's value, and how people read it.
#[derive(Clone, Debug, PartialEq, Eq)]
pub enum Value {
    Number(u64),
    /// With this many hexadecimal digits.
    Hex(u64, usize),
    Bytes(Vec<u8>),
}

impl Value {
    pub fn line(&self) -> String {
        match self {
            Value::Number(number) => number.to_string(),
            Value::Hex(number, digits) => format!("0x{number:0digits$X}"),
            Value::Bytes(bytes) => hex(bytes),
        }
    }

    /// In decimal digits, or hexadecimal ones without blanks.
    pub fn plain(&self) -> String {
        match self {
            Value::Number(number) | Value::Hex(number, _) => number.to_string(),
            Value::Bytes(bytes) => bytes.iter().map(|b| format!("{b:02x}")).collect(),
        }
    }
}

/// A section's fields in their order, as far as they can be read.
#[derive(Clone, Debug, Default)]
pub struct Shown {
    pub fields: Vec<(&'static str, Value)>,
}

/// Bits of a section, read one field behind the other.
struct Bits<'s> {
    bytes: &'s [u8],
    at: usize,
    shown: Shown,
}

impl Bits<'_> {
    /// The next number of so many bits, if they are there.
    fn take(&mut self, width: usize) -> Option<u64> {
        if self.at + width > 8 * self.bytes.len() {
            return None;
        }
        let mut number = 0;
        for at in self.at..self.at + width {
            let bit = self.bytes[at / 8] >> (7 - at % 8) & 1;
            number = number << 1 | u64::from(bit);
        }
        self.at += width;
        Some(number)
    }

    fn number(&mut self, name: &'static str, width: usize) -> Option<u64> {
        let number = self.take(width)?;
        self.shown.fields.push((name, Value::Number(number)));
        Some(number)
    }

    fn hex(&mut self, name: &'static str, width: usize) -> Option<u64> {
        let number = self.take(width)?;
        let value = Value::Hex(number, width.div_ceil(4));
        self.shown.fields.push((name, value));
        Some(number)
    }

    fn bytes_to(&mut self, name: &'static str, end: usize) {
        let from = self.at.div_ceil(8);
        if from < end && end <= self.bytes.len() {
            let value = Value::Bytes(self.bytes[from..end].to_vec());
            self.shown.fields.push((name, value));
            self.at = 8 * end;
        }
    }

    /// Where the next field begins.
    fn place(&self) -> usize {
        self.at.div_ceil(8)
    }

    fn splice_time(&mut self) -> Option<()> {
        if self.number("time_specified_flag", 1)? == 0 {
            self.take(7)?;
            return Some(());
        }
        self.take(6)?;
        self.number("pts_time", 33)?;
        Some(())
    }

    fn splice_insert(&mut self) -> Option<()> {
        self.hex("splice_event_id", 32)?;
        let cancelled = self.number("splice_event_cancel_indicator", 1)?;
        self.take(7)?;
        if cancelled == 1 {
            return Some(());
        }
        self.number("out_of_network_indicator", 1)?;
        let program = self.number("program_splice_flag", 1)?;
        let duration = self.number("duration_flag", 1)?;
        let immediate = self.number("splice_immediate_flag", 1)?;
        self.take(4)?;
        if program == 1 && immediate == 0 {
            self.splice_time()?;
        }
        if program == 0 {
            for _ in 0..self.number("component_count", 8)? {
                self.number("component_tag", 8)?;
                if immediate == 0 {
                    self.splice_time()?;
                }
            }
        }
        if duration == 1 {
            self.number("auto_return", 1)?;
            self.take(6)?;
            self.number("duration", 33)?;
        }
        self.hex("unique_program_id", 16)?;
        self.number("avail_num", 8)?;
        self.number("avails_expected", 8)?;
        Some(())
    }

    /// The command by its own syntax; of others its bytes, as splice_command_length has them.
    fn command(&mut self, kind: u64, length: u64) -> Option<()> {
        match kind {
            0x00 => Some(()),
            0x05 => self.splice_insert(),
            0x06 => self.splice_time(),
            _ => {
                let end = COMMAND + length as usize;
                (end + 6 <= self.bytes.len()).then_some(())?;
                self.bytes_to("command", end);
                Some(())
            }
        }
    }

    fn descriptors(&mut self, end: usize) -> Option<()> {
        while self.place() < end {
            let tag = self.hex("splice_descriptor_tag", 8)?;
            let length = self.number("descriptor_length", 8)? as usize;
            let last = self.place() + length;
            if last > end {
                return None;
            }
            let cuei = length >= 4 && self.hex("identifier", 32)? == CUEI;
            let (at, count) = (self.at, self.shown.fields.len());
            if tag == 0x02 && cuei && self.segmentation(last).is_none() {
                // not as SCTE 35 has it: its bytes
                self.at = at;
                self.shown.fields.truncate(count);
            }
            self.bytes_to("descriptor_bytes", last);
        }
        Some(())
    }

    /// segmentation_descriptor() behind its identifier, up to its end.
    fn segmentation(&mut self, end: usize) -> Option<()> {
        self.hex("segmentation_event_id", 32)?;
        let cancelled = self.number("segmentation_event_cancel_indicator", 1)?;
        self.take(7)?;
        if cancelled == 0 {
            let program = self.number("program_segmentation_flag", 1)?;
            let duration = self.number("segmentation_duration_flag", 1)?;
            self.delivery()?;
            if program == 0 {
                self.segmented_components()?;
            }
            if duration == 1 {
                self.number("segmentation_duration", 40)?;
            }
            self.segmented(end)?;
        }
        (self.place() <= end).then_some(())
    }

    fn delivery(&mut self) -> Option<()> {
        if self.number("delivery_not_restricted_flag", 1)? == 1 {
            self.take(5)?;
            return Some(());
        }
        for name in ["web_delivery_allowed_flag", "no_regional_blackout_flag", "archive_allowed_flag"] {
            self.number(name, 1)?;
        }
        self.number("device_restrictions", 2)?;
        Some(())
    }

    fn segmented_components(&mut self) -> Option<()> {
        for _ in 0..self.number("segmentation_component_count", 8)? {
            self.number("segmentation_component_tag", 8)?;
            self.take(7)?;
            self.number("pts_offset", 33)?;
        }
        Some(())
    }

    /// The UPID, the type and the numbers of the segments.
    fn segmented(&mut self, end: usize) -> Option<()> {
        self.hex("segmentation_upid_type", 8)?;
        let upid = self.place() + 1 + self.number("segmentation_upid_length", 8)? as usize;
        self.bytes_to("segmentation_upid", upid);
        let kind = self.hex("segmentation_type_id", 8)?;
        self.number("segment_num", 8)?;
        self.number("segments_expected", 8)?;
        if has_parts(kind) && self.place() + 2 <= end {
            self.number("sub_segment_num", 8)?;
            self.number("sub_segments_expected", 8)?;
        }
        (upid <= end).then_some(())
    }

    fn header(&mut self) -> Option<(u64, u64)> {
        self.hex("table_id", 8)?;
        self.number("section_syntax_indicator", 1)?;
        self.number("private_indicator", 1)?;
        self.number("reserved", 2)?;
        self.number("section_length", 12)?;
        self.number("protocol_version", 8)?;
        self.number("encrypted_packet", 1)?;
        self.number("encryption_algorithm", 6)?;
        self.number("pts_adjustment", 33)?;
        self.number("cw_index", 8)?;
        self.hex("tier", 12)?;
        let length = self.number("splice_command_length", 12)?;
        let kind = self.hex("splice_command_type", 8)?;
        Some((kind, length))
    }

    /// From the command to the descriptors' end.
    fn body(&mut self, kind: u64, length: u64) -> Option<()> {
        self.command(kind, length)?;
        if self.place() + 6 > self.bytes.len() {
            return None;
        }
        let descriptors = self.number("descriptor_loop_length", 16)? as usize;
        let end = self.place() + descriptors;
        if end + 4 > self.bytes.len() {
            return None;
        }
        let (at, count) = (self.at, self.shown.fields.len());
        if self.descriptors(end).is_none() {
            // not as SCTE 35 has them: their bytes
            self.at = at;
            self.shown.fields.truncate(count);
            self.bytes_to("descriptors", end);
        }
        let crc = self.bytes.len() - 4;
        self.bytes_to("alignment_stuffing", crc);
        Some(())
    }
}

/// "CUEI", SCTE 35's own identifier.
const CUEI: u64 = 0x4355_4549;

impl Shown {
    /// What a field means, in words, behind its value.
    pub fn meant(&self, place: usize) -> Option<String> {
        let kind = |name: &str| self.fields[..place].iter().rev().find(|(own, _)| *own == name).map(|(_, value)| value);
        match &self.fields[place] {
            ("segmentation_type_id", Value::Hex(number, _)) => Some(type_name(*number).to_string()),
            ("segmentation_upid_type", Value::Hex(number, _)) => Some(upid_name(*number).to_string()),
            ("segmentation_duration" | "duration", Value::Number(ticks)) => Some(seconds(*ticks)),
            ("segmentation_upid", Value::Bytes(bytes)) => match kind("segmentation_upid_type") {
                Some(Value::Hex(number, _)) => upid_text(*number, bytes),
                _ => None,
            },
            _ => None,
        }
    }

    pub fn of(section: &[u8]) -> Shown {
        let mut bits = Bits { bytes: section, at: 0, shown: Shown::default() };
        let head = bits.header();
        let plain = section.first() == Some(&0xFC) && section.get(4).is_some_and(|b| b < &0x80);
        let read = match head {
            Some((kind, length)) if plain => bits.body(kind, length),
            _ => None,
        };
        if section.len() >= COMMAND + 4 {
            let crc = section.len() - 4;
            if read.is_none() {
                bits.bytes_to("not_read", crc);
            }
            bits.at = 8 * crc;
            bits.hex("CRC_32", 32);
        } else {
            bits.bytes_to("not_read", section.len());
        }
        bits.shown
    }

    /// The first number of this name.
    pub fn number(&self, name: &str) -> Option<u64> {
        let mut named = self.fields.iter().filter(|(own, _)| *own == name);
        named.find_map(|(_, value)| match value {
            Value::Number(number) | Value::Hex(number, _) => Some(*number),
            Value::Bytes(_) => None,
        })
    }

    pub fn has(&self, name: &str) -> bool {
        self.fields.iter().any(|(own, _)| *own == name)
    }

    /// All values of this name, joined by commas.
    pub fn plain(&self, name: &str) -> String {
        let named = self.fields.iter().filter(|(own, _)| *own == name);
        let values: Vec<String> = named.map(|(_, value)| value.plain()).collect();
        values.join(",")
    }
}

/// Whether the lengths of a splice_insert in component mode are right: only to tell branches apart.
pub fn component_lengths_fit(section: &[u8]) -> bool {
    let mut bits = Bits { bytes: section, at: 8 * COMMAND, shown: Shown::default() };
    if bits.splice_insert().is_none() || bits.place() + 6 > section.len() {
        return false;
    }
    let size = bits.place() - COMMAND;
    let descriptors = bits.take(16).unwrap_or(0) as usize;
    let length = usize::from(command_length(section));
    let fits = length == size || length == 0xFFF;
    fits && bits.place() + descriptors + 4 <= section.len()
}

/// The command of a right section that is not encrypted, in words.
pub fn summary(section: &[u8]) -> Option<String> {
    let plain = section.len() >= 20 && section[0] == 0xFC && section[4] < 0x80;
    if !plain || !is_whole(section) || crc(section) != 0 {
        return None;
    }
    let shown = Shown::of(section);
    let set = |name: &str| shown.number(name) == Some(1);
    let mut text = match section[13] {
        0x00 => "splice_null".to_string(),
        0x04 => "splice_schedule".to_string(),
        0x05 => format!("splice_insert {}", shown.number("splice_event_id")?),
        0x06 => "time_signal".to_string(),
        kind => format!("splice_command_type 0x{kind:02X}"),
    };
    let words = [
        ("splice_event_cancel_indicator", " cancelled"),
        ("out_of_network_indicator", " out"),
        ("splice_immediate_flag", " immediate"),
    ];
    for (_, word) in words.iter().filter(|(name, _)| set(name)) {
        text += word;
    }
    for name in ["pts_time", "duration"] {
        if let Some(ticks) = shown.number(name) {
            text += &format!(" {name} {ticks}");
        }
    }
    Some(text)
}
