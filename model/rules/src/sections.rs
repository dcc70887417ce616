//! 02, CR 7: what comes of a section of SCTE 35, "first that applies", and the time that is written. The source
//! documents have no sections: docs/SCTE35.md says how they are read, and its sentences stand here.

use crate::bytes::word;
use crate::times::{ninths, wire, HORIZON, NONE, TICK};

/// "11 for a section not 3 + section_length bytes long, under 20 or over 512".
pub const LEAST: usize = 20;
pub const MOST: usize = 512;
/// "A command length of 0xFFF counts as not given."
pub const NOT_GIVEN: u16 = 0xFFF;
/// A PTS has 33 bits.
pub const WRAP: u64 = 1 << 33;
/// "General_Response 117".
pub const INVALID: u16 = 117;
/// Where the command begins.
pub const COMMAND: usize = 14;
/// descriptor_loop_length and CRC_32 stand behind the command.
pub const BEHIND: usize = 6;

/// What the caller gives: a section, a PTS and the UTC instant that belongs to it.
#[derive(Clone, Debug, PartialEq, Eq)]
pub struct Given {
    pub section: Vec<u8>,
    pub pts: u64,
    pub seconds: u32,
    pub micros: u32,
}

/// What comes of a section that is not refused.
#[derive(Clone, Copy, Debug, PartialEq, Eq)]
pub enum Comes {
    /// It passes, with the cue's PTS: pts_time and pts_adjustment, modulo 2^33.
    At(u64),
    /// It passes without a pts_time.
    Timeless,
    Nothing,
    Bad,
}

/// What comes of it, and by which rule, in words.
pub type Verdict = (Comes, &'static str);

/// A command as its own syntax has it: its size, and the pts_time if there is one.
#[derive(Clone, Copy)]
pub struct Syntax {
    pub size: usize,
    pub time: Option<u64>,
    pub name: &'static str,
}

macro_rules! table {
    ($($(#[$doc:meta])* $name:ident($($arg:ident: $kind:ty),*) -> $out:ty;)*) => {
        /// The rules about sections, by name.
        #[derive(Clone, Copy)]
        pub struct Sections {
            $($(#[$doc])* pub $name: fn(&Sections, $($kind),*) -> $out,)*
        }

        impl Sections {
            $($(#[$doc])* pub fn $name(&self, $($arg: $kind),*) -> $out {
                (self.$name)(self, $($arg),*)
            })*
        }

        pub const RIGHT: Sections = Sections { $($name,)* };
    };
}

table! {
    crc(bytes: &[u8]) -> u32;
    /// Whether CRC_32 is right.
    right(section: &[u8]) -> bool;
    /// Whether it has a length that is not refused with 11.
    fits(section: &[u8]) -> bool;
    judged(section: &[u8]) -> Verdict;
    passed_over(section: &[u8]) -> Option<Verdict>;
    commanded(section: &[u8]) -> Verdict;
    /// A splice_time()'s size and pts_time; none if it does not fit.
    splice_time(bytes: &[u8]) -> Option<(usize, Option<u64>)>;
    splice_insert(section: &[u8], command: &[u8]) -> Result<Syntax, Verdict>;
    component_mode(section: &[u8]) -> Verdict;
    program_mode(flags: u8, command: &[u8]) -> Result<Syntax, Verdict>;
    /// What is wrong with splice_command_length.
    wrong_length(section: &[u8], size: usize) -> Option<&'static str>;
    /// What is wrong with descriptor_loop_length.
    wrong_loop(section: &[u8], size: usize) -> Option<&'static str>;
    moment(section: &[u8], time: Option<u64>) -> Comes;
    adjustment(section: &[u8]) -> u64;
    time_of(comes: Comes, given: &Given) -> (u32, u32);
    exact(cue: u64, given: &Given) -> u64;
}

/// The CRC of ISO/IEC 13818-1, "computed bit by bit". "For each bit: take the register's highest bit, shift the
/// register left by one [..], and if the bit taken differs from the data's bit, XOR".
pub fn crc(_: &Sections, bytes: &[u8]) -> u32 {
    let mut register: u32 = 0xFFFF_FFFF;
    for byte in bytes {
        for place in (0..8).rev() {
            let highest = (register >> 31) as u8;
            register <<= 1;
            if highest != byte >> place & 1 {
                register ^= 0x04C1_1DB7;
            }
        }
    }
    register
}

/// "A section is right exactly if it is 0" behind the whole.
pub fn right(r: &Sections, section: &[u8]) -> bool {
    r.crc(section) == 0
}

/// section_length, the 12 low bits of bytes 1 and 2.
pub fn section_length(section: &[u8]) -> usize {
    usize::from(section[1] & 0x0F) << 8 | usize::from(section[2])
}

/// "11 for a section not 3 + section_length bytes long, under 20 or over 512".
pub fn fits(_: &Sections, section: &[u8]) -> bool {
    (LEAST..=MOST).contains(&section.len()) && section.len() == 3 + section_length(section)
}

/// (i) "wrong CRC_32 over the whole section: bad, whatever else it is"; then (ii) to (vi).
pub fn judged(r: &Sections, section: &[u8]) -> Verdict {
    if !r.right(section) {
        return (Comes::Bad, "bad CRC_32");
    }
    match r.passed_over(section) {
        Some(verdict) => verdict,
        None => r.commanded(section),
    }
}

/// (ii) "table_id not 0xFC, or encrypted_packet 1: nothing"; (iii) "splice_command_type other than 0x00, 0x05, 0x06: nothing".
pub fn passed_over(_: &Sections, section: &[u8]) -> Option<Verdict> {
    if section[0] != 0xFC {
        return Some((Comes::Nothing, "nothing: another table"));
    }
    if section[4] & 0x80 != 0 {
        return Some((Comes::Nothing, "nothing: encrypted"));
    }
    let name = match section[13] {
        0x00 | 0x05 | 0x06 => return None,
        0x04 => "nothing: splice_schedule",
        0x07 => "nothing: bandwidth_reservation",
        0xFF => "nothing: private_command",
        _ => "nothing: a reserved command",
    };
    Some((Comes::Nothing, name))
}

/// (iv), (v) and (vi): the mode, the lengths, and what is left passes.
pub fn commanded(r: &Sections, section: &[u8]) -> Verdict {
    // Before descriptor_loop_length and CRC_32, "at section length - 6".
    let command = &section[COMMAND..(section.len() - BEHIND).max(COMMAND)];
    syntax_of(r, section, command).map_or_else(|verdict| verdict, |syntax| fitted(r, section, syntax))
}

/// The command's own syntax, or what its mode makes of it.
pub fn syntax_of(r: &Sections, section: &[u8], command: &[u8]) -> Result<Syntax, Verdict> {
    match section[13] {
        0x00 => Ok(Syntax { size: 0, time: None, name: "passes: splice_null" }),
        0x05 => r.splice_insert(section, command),
        _ => time_signal(r, command),
    }
}

/// time_specified_flag 1 and pts_time in 33 bits, 5 bytes; or 1 byte.
pub fn splice_time(_: &Sections, bytes: &[u8]) -> Option<(usize, Option<u64>)> {
    let first = *bytes.first()?;
    if first & 0x80 == 0 {
        return Some((1, None));
    }
    let low = u32::from_be_bytes(bytes.get(1..5)?.try_into().ok()?);
    Some((5, Some(u64::from(first & 1) << 32 | u64::from(low))))
}

fn time_signal(r: &Sections, command: &[u8]) -> Result<Syntax, Verdict> {
    match r.splice_time(command) {
        None => Err((Comes::Bad, "bad: a time_signal past its place")),
        Some((size, None)) => Ok(Syntax { size, time: None, name: "passes: time_signal without a pts_time" }),
        Some((size, time)) => Ok(Syntax { size, time, name: "passes: time_signal with a pts_time" }),
    }
}

/// "A splice_insert too short to hold its cancel byte (5 bytes) or, not cancelled,
/// its flags (6 bytes) is bad: its mode cannot be seen."
pub fn splice_insert(r: &Sections, section: &[u8], command: &[u8]) -> Result<Syntax, Verdict> {
    let Some(cancel) = command.get(4) else {
        return Err((Comes::Bad, "bad: a splice_insert without its cancel byte"));
    };
    if cancel & 0x80 != 0 {
        return Ok(Syntax { size: 5, time: None, name: "passes: cancelled" });
    }
    match command.get(5) {
        None => Err((Comes::Bad, "bad: a splice_insert without its flags")),
        Some(flags) if flags & 0x40 == 0 => Err(r.component_mode(section)),
        Some(flags) => r.program_mode(*flags, command),
    }
}

/// (iv) "has program_splice_flag 0: nothing, even if its lengths are wrong". The section is given for a reading that looks at them.
pub fn component_mode(_: &Sections, _: &[u8]) -> Verdict {
    (Comes::Nothing, "nothing: component mode")
}

/// A splice_insert from its flags on: splice_time() unless immediate, break_duration() with duration_flag, and four bytes.
pub fn program_mode(r: &Sections, flags: u8, command: &[u8]) -> Result<Syntax, Verdict> {
    let (immediate, duration) = (flags & 0x10 != 0, flags & 0x20 != 0);
    let past = (Comes::Bad, "bad: a splice_insert past its place");
    let (used, time) = match immediate {
        true => (0, None),
        false => r.splice_time(&command[6..]).ok_or(past)?,
    };
    let size = 6 + used + if duration { 5 } else { 0 } + 4;
    if size > command.len() {
        return Err(past);
    }
    Ok(Syntax { size, time, name: "passes: splice_insert" })
}

pub fn command_length(section: &[u8]) -> u16 {
    u16::from_be_bytes([section[11] & 0x0F, section[12]])
}

/// (v) the lengths; (vi) what is left passes.
pub fn fitted(r: &Sections, section: &[u8], syntax: Syntax) -> Verdict {
    let wrong = r.wrong_length(section, syntax.size).or_else(|| r.wrong_loop(section, syntax.size));
    match wrong {
        Some(why) => (Comes::Bad, why),
        None => (r.moment(section, syntax.time), syntax.name),
    }
}

/// (v) "splice_command_length must equal the size, or be 0xFFF".
pub fn wrong_length(_: &Sections, section: &[u8], size: usize) -> Option<&'static str> {
    let length = command_length(section);
    (length != NOT_GIVEN && usize::from(length) != size).then_some("bad: splice_command_length")
}

/// Where the descriptors end and where CRC_32 begins.
pub fn loop_end(section: &[u8], size: usize) -> (usize, usize) {
    let at = COMMAND + size;
    let length = section.get(at..at + 2).map_or(0, |two| usize::from(u16::from_be_bytes([two[0], two[1]])));
    (at + 2 + length, section.len() - 4)
}

/// (v) "descriptor_loop_length must not reach past CRC_32; fewer bytes than are left are good (stuffing)."
pub fn wrong_loop(_: &Sections, section: &[u8], size: usize) -> Option<&'static str> {
    let (end, crc) = loop_end(section, size);
    (end > crc).then_some("bad: descriptor_loop_length past CRC_32")
}

/// "a cue's 33-bit PTS (with pts_adjustment added, modulo 2^33)"
pub fn moment(r: &Sections, section: &[u8], time: Option<u64>) -> Comes {
    match time {
        Some(time) => Comes::At((time + r.adjustment(section)) % WRAP),
        None => Comes::Timeless,
    }
}

/// "bit 32 is the lowest bit of byte 4 (0x01), the others are bytes 5 to 8".
pub fn adjustment(_: &Sections, section: &[u8]) -> u64 {
    u64::from(section[4] & 1) << 32 | u64::from(word(section, 5))
}

/// The ticks from the given PTS to the cue's: "the first one at or after that PTS". 2^64 is a multiple of 2^33.
pub fn ticks(cue: u64, pts: u64) -> u64 {
    cue.wrapping_sub(pts) % WRAP
}

/// "The UTC written is rounded down to a microsecond". "No pts_time gives all ones; so does an instant past the time
/// field's range."
pub fn time_of(r: &Sections, comes: Comes, given: &Given) -> (u32, u32) {
    match comes {
        Comes::At(cue) if r.exact(cue, given) < HORIZON => wire(r.exact(cue, given)),
        _ => (NONE, NONE),
    }
}

/// The given instant and the ticks to the cue, in ninths.
pub fn exact(_: &Sections, cue: u64, given: &Given) -> u64 {
    ninths(given.seconds, given.micros) + TICK * ticks(cue, given.pts)
}
