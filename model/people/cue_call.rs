//! The cue call (02, CR 7) for those who make and show sections.

use crate::people::record_lines::Line;
use rules::sections::RIGHT;
pub use rules::sections::{command_length, section_length, Comes, Given, Verdict, COMMAND, INVALID, LEAST, MOST, NOT_GIVEN, WRAP};
pub use rules::times::HORIZON;

impl Line for Given {
    fn line(&self) -> String {
        let Given { section, pts, seconds, micros } = self;
        let digits: String = section.iter().map(|b| format!("{b:02X}")).collect();
        format!("cue {digits} pts={pts} at={seconds}:{micros}")
    }
}

pub fn crc(bytes: &[u8]) -> u32 {
    RIGHT.crc(bytes)
}

/// What comes of a section that is not refused, and by which rule.
pub fn judged(section: &[u8]) -> Verdict {
    RIGHT.judged(section)
}

/// The time that is written.
pub fn time_of(comes: Comes, given: &Given) -> (u32, u32) {
    RIGHT.time_of(comes, given)
}
