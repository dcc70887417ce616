//! The branches of the cue call (02, CR 7).

use super::notes::with;
use super::table::{Floors, Hits};
use crate::people::shown::Shown;
use crate::people::why::{in_full, misfit};
use rules::bytes::Record;
use rules::cue as right;
use rules::sections::{command_length, ticks, Comes, Given, Sections, NOT_GIVEN, RIGHT, WRAP};
use rules::state::Splicer;
use rules::times::{ninths, HORIZON, MICROSECOND, NONE, TICK};

pub fn cue(s: &mut Splicer, given: &Given, room: usize) -> Result<Vec<Record>, u8> {
    let said = right::cue(s, given, room);
    with(|watch| match said {
        Err(number) => watch.cues.hit(refusal(given, number)),
        Ok(_) => {
            let (comes, name) = RIGHT.judged(&given.section);
            let time = RIGHT.time_of(comes, given);
            count(&mut watch.cues, given, comes, in_full(&given.section, name), time);
            count_told(&mut watch.cues, s, comes);
        }
    });
    said
}

/// The branch of a house number.
fn refusal(given: &Given, number: u8) -> &'static str {
    let (past, fits) = (given.micros > 999_999, RIGHT.fits(&given.section));
    match number {
        2 if past || !fits => "cue 2 before 8 or 11",
        2 => "cue 2 output buffer too small",
        8 if !fits => "cue 8 before 11",
        8 => "cue 8 MicroSeconds above 999,999",
        _ => misfit(&given.section).unwrap_or("cue 11"),
    }
}

/// Where it goes to, and where not.
fn count_told(hits: &mut Hits, s: &Splicer, comes: Comes) {
    if comes == Comes::Nothing {
        return;
    }
    hits.hit(match s.cue_to().len() {
        0 => "cue with no initialised connection",
        1 => "cue to 1 connection",
        2 => "cue to 2 connections",
        3 => "cue to 3 connections",
        _ => "cue to 4 connections",
    });
    if (0..4).any(|conn| s.open[conn] && !s.initialised[conn]) {
        hits.hit("cue past an open connection");
    }
    if (0..4).any(|conn| !s.open[conn] && s.initialised[conn]) {
        hits.hit("cue past a closed connection that was initialised");
    }
}

/// The branch table's entries of a section that was not refused.
fn count(hits: &mut Hits, given: &Given, comes: Comes, branch: &'static str, time: (u32, u32)) {
    hits.hit(branch);
    let section = &given.section;
    match section.len() {
        20 => hits.hit("section of 20 bytes"),
        511 => hits.hit("section of 511 bytes"),
        512 => hits.hit("section of 512 bytes"),
        _ => {}
    }
    if branch == "bad CRC_32" {
        return hits.hit(wrong_crc(section));
    }
    match comes {
        Comes::Nothing | Comes::Bad => {}
        Comes::Timeless => {
            count_passed(hits, section);
            if RIGHT.adjustment(section) != 0 {
                hits.hit("no pts_time, with a pts_adjustment");
            }
        }
        Comes::At(cue) => {
            count_passed(hits, section);
            count_time(hits, given, cue, time);
        }
    }
}

/// What the section would have been with a right CRC_32.
fn wrong_crc(section: &[u8]) -> &'static str {
    const UNCHECKED: Sections = Sections { right: |_, _| true, ..RIGHT };
    match UNCHECKED.judged(section).1 {
        "nothing: another table" => "bad CRC_32 of another table",
        "nothing: encrypted" => "bad CRC_32 of an encrypted section",
        "nothing: component mode" => "bad CRC_32 in component mode",
        name if name.starts_with("nothing") => "bad CRC_32 of another command",
        name if name.starts_with("bad") => "bad CRC_32 and wrong lengths",
        _ => "bad CRC_32 of what would pass",
    }
}

fn count_passed(hits: &mut Hits, section: &[u8]) {
    let shown = Shown::of(section);
    if section[3] != 0 {
        hits.hit("passes with another protocol_version");
    }
    if command_length(section) == NOT_GIVEN {
        hits.hit(match section[13] {
            0x00 => "passes with 0xFFF: splice_null",
            0x05 => "passes with 0xFFF: splice_insert",
            _ => "passes with 0xFFF: time_signal",
        });
    }
    let descriptors = shown.number("descriptor_loop_length").unwrap_or(0) > 0;
    let stuffing = shown.has("alignment_stuffing");
    hits.hit(match (descriptors, stuffing) {
        (false, false) => "passes with nothing behind the command",
        (true, false) => "passes with descriptors",
        (false, true) => "passes with stuffing",
        (true, true) => "passes with descriptors and stuffing",
    });
}

fn count_time(hits: &mut Hits, given: &Given, cue: u64, time: (u32, u32)) {
    let section = &given.section;
    let pts_time = Shown::of(section).number("pts_time").unwrap_or(0);
    let adjustment = RIGHT.adjustment(section);
    hits.hit(match (adjustment, pts_time + adjustment >= WRAP) {
        (0, _) => "cue's PTS without an adjustment",
        (_, false) => "cue's PTS with an adjustment",
        (_, true) => "cue's PTS past 2^33",
    });
    if pts_time + adjustment == WRAP {
        hits.hit("cue's PTS exactly 2^33");
    }
    if adjustment >> 32 == 1 {
        hits.hit("cue's PTS with bit 32 of the adjustment");
    }
    if given.pts >= WRAP {
        hits.hit("given PTS of 2^33 or more");
    }
    let ticks = ticks(cue, given.pts);
    hits.hit(match ticks {
        0 => "cue at the given PTS",
        1 => "cue 1 tick behind the given PTS",
        _ if ticks == WRAP - 1 => "cue 1 tick before the given PTS",
        _ if cue < given.pts % WRAP => "cue behind the rollover of the PTS",
        _ => "cue elsewhere",
    });
    count_written(hits, given, ninths(given.seconds, given.micros) + TICK * ticks, time);
}

/// How the time that is written was rounded, and where it lies.
fn count_written(hits: &mut Hits, given: &Given, exact: u64, time: (u32, u32)) {
    hits.hit(match exact % MICROSECOND {
        0 => "time exact in microseconds",
        1..=4 => "time rounded down by 4 ninths at most",
        _ => "time rounded down by 5 ninths or more",
    });
    if time == (NONE, NONE) {
        hits.hit("time past the range");
        if exact < HORIZON + TICK {
            hits.hit("time past the range by less than a tick");
        }
    } else if time == (NONE, 999_999) {
        hits.hit("time in the last microsecond");
    } else if time.0 == NONE {
        hits.hit("time in the last second");
    }
    if (given.seconds, given.micros) == (NONE, 999_999) {
        hits.hit("given instant in the last microsecond");
    }
}

/// Branches of the cue call, with their floors for 200 streams of `model cues`.
pub const FLOORS: &Floors = &[
    ("cue 2 output buffer too small", 900),
    ("cue 2 before 8 or 11", 200),
    ("cue 8 MicroSeconds above 999,999", 900),
    ("cue 8 before 11", 200),
    ("cue 11 fewer than 3 bytes", 600),
    ("cue 11 under 19 bytes", 300),
    ("cue 11 19 bytes", 500),
    ("cue 11 513 bytes", 200),
    ("cue 11 over 513 bytes", 500),
    ("cue 11 a byte less than section_length says", 200),
    ("cue 11 a byte more than section_length says", 200),
    ("cue 11 section_length right in its low 10 bits only", 200),
    ("cue 11 another section_length", 1000),
    ("section of 20 bytes", 1500),
    ("section of 511 bytes", 200),
    ("section of 512 bytes", 300),
    ("bad CRC_32", 3000),
    ("bad CRC_32 of another table", 200),
    ("bad CRC_32 of an encrypted section", 150),
    ("bad CRC_32 in component mode", 200),
    ("bad CRC_32 of another command", 300),
    ("bad CRC_32 and wrong lengths", 800),
    ("bad CRC_32 of what would pass", 1500),
    ("nothing: another table", 600),
    ("nothing: encrypted", 400),
    ("nothing: splice_schedule", 300),
    ("nothing: bandwidth_reservation", 150),
    ("nothing: private_command", 100),
    ("nothing: a reserved command", 700),
    ("nothing: component mode", 700),
    ("nothing: component mode with wrong lengths", 200),
    ("bad: a splice_insert without its cancel byte", 200),
    ("bad: a splice_insert without its flags", 30),
    ("bad: a splice_insert past its place", 200),
    ("bad: a time_signal past its place", 100),
    ("bad: splice_command_length one less", 100),
    ("bad: splice_command_length one more", 200),
    ("bad: splice_command_length another", 1000),
    ("bad: descriptor_loop_length a byte past CRC_32", 200),
    ("bad: descriptor_loop_length far past CRC_32", 700),
    ("passes: splice_null", 1500),
    ("passes: cancelled", 700),
    ("passes: immediate", 400),
    ("passes: immediate, with a duration", 400),
    ("passes: splice_insert without a pts_time", 200),
    ("passes: splice_insert without a pts_time, with a duration", 200),
    ("passes: splice_insert with a pts_time", 800),
    ("passes: splice_insert with a pts_time and a duration", 800),
    ("passes: time_signal with a pts_time", 1500),
    ("passes: time_signal without a pts_time", 500),
    ("passes with another protocol_version", 1000),
    ("passes with 0xFFF: splice_null", 500),
    ("passes with 0xFFF: splice_insert", 1000),
    ("passes with 0xFFF: time_signal", 600),
    ("passes with nothing behind the command", 3000),
    ("passes with descriptors", 2000),
    ("passes with stuffing", 1000),
    ("passes with descriptors and stuffing", 800),
    ("no pts_time, with a pts_adjustment", 2500),
    ("cue's PTS without an adjustment", 1000),
    ("cue's PTS with an adjustment", 800),
    ("cue's PTS past 2^33", 1000),
    ("cue's PTS exactly 2^33", 300),
    ("cue's PTS with bit 32 of the adjustment", 1000),
    ("given PTS of 2^33 or more", 1000),
    ("cue at the given PTS", 400),
    ("cue 1 tick behind the given PTS", 300),
    ("cue 1 tick before the given PTS", 400),
    ("cue behind the rollover of the PTS", 1000),
    ("cue elsewhere", 900),
    ("time exact in microseconds", 600),
    ("time rounded down by 4 ninths at most", 1000),
    ("time rounded down by 5 ninths or more", 1000),
    ("time past the range", 400),
    ("time past the range by less than a tick", 200),
    ("time in the last microsecond", 300),
    ("time in the last second", 300),
    ("given instant in the last microsecond", 200),
    ("cue with no initialised connection", 30),
    ("cue to 1 connection", 500),
    ("cue to 2 connections", 1500),
    ("cue to 3 connections", 4500),
    ("cue to 4 connections", 6000),
    ("cue past an open connection", 4000),
    ("cue past a closed connection that was initialised", 3500),
];
