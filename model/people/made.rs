//! A section made from words: `model cue --make`.

use crate::people::scenario::{hex_bytes, wide};
use crate::people::section_bytes::{Command, Insert, Section};

/// The words of `--make`: each must be taken.
struct Words {
    list: Vec<(String, String)>,
}

impl Words {
    fn text(&mut self, key: &str) -> Option<String> {
        let place = self.list.iter().position(|(own, _)| own == key)?;
        Some(self.list.remove(place).1)
    }

    /// A number that fits a field of this many bits.
    fn optional(&mut self, key: &str, bits: u32) -> Result<Option<u64>, String> {
        self.text(key).map(|text| fitting(key, &text, bits)).transpose()
    }

    fn number(&mut self, key: &str, usual: u64, bits: u32) -> Result<u64, String> {
        Ok(self.optional(key, bits)?.unwrap_or(usual))
    }

    fn flag(&mut self, key: &str, usual: u64) -> Result<bool, String> {
        Ok(self.number(key, usual, 1)? != 0)
    }

    fn bytes(&mut self, key: &str) -> Result<Vec<u8>, String> {
        hex_bytes(&self.text(key).unwrap_or_default())
    }
}

fn fitting(key: &str, text: &str, bits: u32) -> Result<u64, String> {
    let fits = Some(wide(text)?).filter(|number| number >> bits == 0);
    fits.ok_or(format!("{key}: more than {bits} bits: {text}"))
}

/// A section from words: the command's name, then KEY=VALUE.
pub fn made(words: &[String]) -> Result<Vec<u8>, String> {
    let (kind, rest) = words.split_first().ok_or("--make needs a command")?;
    let pair = |word: &String| {
        let (key, value) = word.split_once('=').ok_or(format!("no '=' in {word}"))?;
        Ok::<_, String>((key.to_string(), value.to_string()))
    };
    let mut words = Words { list: rest.iter().map(pair).collect::<Result<_, _>>()? };
    let mut section = Section::new(command_of(kind, &mut words)?);
    section.table = words.number("table", 0xFC, 8)? as u8;
    section.indicators = words.number("indicators", 0b0011, 4)? as u8;
    section.protocol = words.number("protocol", 0, 8)? as u8;
    section.encrypted = words.flag("encrypted", 0)?;
    section.algorithm = words.number("algorithm", 0, 6)? as u8;
    section.adjustment = words.number("adjustment", 0, 33)?;
    section.cw_index = words.number("cw_index", 0, 8)? as u8;
    section.tier = words.number("tier", 0xFFF, 12)? as u16;
    section.length = words.optional("length", 12)?.map(|length| length as u16);
    section.loop_length = words.optional("loop", 16)?.map(|length| length as u16);
    section.descriptors = words.bytes("desc")?;
    section.stuffing = words.bytes("stuffing")?;
    let mut bytes = section.bytes();
    if let Some(crc) = words.optional("crc", 32)? {
        let end = bytes.len() - 4;
        bytes[end..].copy_from_slice(&(crc as u32).to_be_bytes());
    }
    match words.list.first() {
        None => Ok(bytes),
        Some((key, _)) => Err(format!("unknown word {key}=")),
    }
}

fn command_of(kind: &str, words: &mut Words) -> Result<Command, String> {
    let other = match kind {
        "null" => return Ok(Command::Null),
        "time_signal" => return Ok(Command::TimeSignal(words.optional("pts", 33)?)),
        "insert" => return Ok(Command::Insert(insert_of(words)?)),
        "schedule" => 0x04,
        "bandwidth" => 0x07,
        "private" => 0xFF,
        number => fitting(kind, number, 8).map_err(|_| format!("no command {kind}"))? as u8,
    };
    Ok(Command::Other(other, words.bytes("body")?))
}

/// `component=TAG[:PTS]` for each, in component mode.
fn insert_of(words: &mut Words) -> Result<Insert, String> {
    let mut insert = Insert::new(words.number("id", 1, 32)? as u32);
    insert.cancelled = words.flag("cancelled", 0)?;
    insert.out = words.flag("out", 1)?;
    insert.immediate = words.flag("immediate", 0)?;
    insert.time = words.optional("pts", 33)?;
    let auto = words.flag("auto", 0)?;
    insert.duration = words.optional("duration", 33)?.map(|ticks| (auto, ticks));
    insert.program = words.number("program", 0, 16)? as u16;
    insert.avail = words.number("avail", 0, 8)? as u8;
    insert.avails = words.number("avails", 0, 8)? as u8;
    while let Some(text) = words.text("component") {
        let (tag, time) = match text.split_once(':') {
            Some((tag, pts)) => (fitting("component", tag, 8)?, Some(fitting("component", pts, 33)?)),
            None => (fitting("component", &text, 8)?, None),
        };
        insert.components.get_or_insert_with(Vec::new).push((tag as u8, time));
    }
    Ok(insert)
}
