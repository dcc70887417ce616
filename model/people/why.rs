//! Why a section is refused, passed over or bad, in full.

use crate::people::shown::component_lengths_fit;
use rules::sections::{self, command_length, section_length, LEAST, RIGHT};

/// The reason for house number 11, if there is one.
pub fn misfit(section: &[u8]) -> Option<&'static str> {
    let length = section.len();
    if RIGHT.fits(section) {
        return None;
    }
    if length < 3 {
        return Some("cue 11 fewer than 3 bytes");
    }
    let whole = 3 + section_length(section);
    Some(match length {
        _ if length == whole + 1 => "cue 11 a byte more than section_length says",
        _ if length + 1 == whole => "cue 11 a byte less than section_length says",
        _ if length % 1024 == whole % 1024 && length != whole => "cue 11 section_length right in its low 10 bits only",
        _ if length != whole => "cue 11 another section_length",
        19 => "cue 11 19 bytes",
        513 => "cue 11 513 bytes",
        _ if length < LEAST => "cue 11 under 19 bytes",
        _ => "cue 11 over 513 bytes",
    })
}

/// A verdict's name, with what the lengths tell beside.
pub fn in_full(section: &[u8], name: &'static str) -> &'static str {
    match name {
        "nothing: component mode" if !component_lengths_fit(section) => "nothing: component mode with wrong lengths",
        "passes: splice_insert" => insert_name(section),
        "bad: splice_command_length" => match command_size(section) {
            Some(size) if usize::from(command_length(section)) + 1 == size => "bad: splice_command_length one less",
            Some(size) if usize::from(command_length(section)) == size + 1 => "bad: splice_command_length one more",
            _ => "bad: splice_command_length another",
        },
        "bad: descriptor_loop_length past CRC_32" => {
            let (end, crc) = sections::loop_end(section, command_size(section).unwrap_or(0));
            match end - crc {
                1 => "bad: descriptor_loop_length a byte past CRC_32",
                _ => "bad: descriptor_loop_length far past CRC_32",
            }
        }
        _ => name,
    }
}

/// A splice_insert in program mode, by its flags and its splice_time().
fn insert_name(section: &[u8]) -> &'static str {
    let flags = section[sections::COMMAND + 5];
    let timed = section[sections::COMMAND + 6] & 0x80 != 0;
    match (flags & 0x10 != 0, timed, flags & 0x20 != 0) {
        (true, _, false) => "passes: immediate",
        (true, _, true) => "passes: immediate, with a duration",
        (_, false, false) => "passes: splice_insert without a pts_time",
        (_, false, true) => "passes: splice_insert without a pts_time, with a duration",
        (_, true, false) => "passes: splice_insert with a pts_time",
        (_, true, true) => "passes: splice_insert with a pts_time and a duration",
    }
}

/// The size of the command by its own syntax.
fn command_size(section: &[u8]) -> Option<usize> {
    let command = &section[sections::COMMAND..(section.len() - sections::BEHIND).max(sections::COMMAND)];
    sections::syntax_of(&RIGHT, section, command).ok().map(|syntax| syntax.size)
}
