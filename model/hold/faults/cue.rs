//! Mistakes about cues (02, CR 7): each stands in for one rule of `rules::sections`, or of the cue call.

use super::mistakes::{dashed, mistakes};
use rules::bytes::{Record, What};
use rules::right::RULES;
use rules::sections::{self, Comes, Given, Sections, Syntax, Verdict, BEHIND, COMMAND, LEAST, MOST, WRAP};
use rules::state::Rules;
use rules::state::{Splicer, ROOM};
use rules::times::{ninths, wire, HORIZON, MICROSECOND, NONE, SECOND, TICK};
use rules::{cue, sections as right};
use std::sync::OnceLock;

mistakes! { Miscue, MISCUES, Rules, RULES;
    RegisterFromZero: "the CRC's register begins at 0", |r| r.sections.crc = |_, bytes| crc_by(bytes, 0, 0x04C1_1DB7, DOWN);
    ReflectedPolynomial: "the CRC's polynomial is 0xEDB88320",
        |r| r.sections.crc = |_, bytes| crc_by(bytes, NONE, 0xEDB8_8320, DOWN);
    LowestBitFirst: "the lowest bit of a byte comes first",
        |r| r.sections.crc = |_, bytes| crc_by(bytes, NONE, 0x04C1_1DB7, [0, 1, 2, 3, 4, 5, 6, 7]);
    CrcInverted: "the CRC is inverted at the end", |r| r.sections.right = crc_inverted;
    CrcUnchecked: "a wrong CRC_32 is let pass", |r| r.sections.right = |_, _| true;
    SilenceBeforeCrc: "another table, command or mode is silent with a wrong CRC_32",
        |r| r.sections.judged = silence_before_crc;
    SilentCrc: "a wrong CRC_32 writes nothing", |r| r.sections.judged = silent_crc;
    OtherTablePassed: "another table is read on", |r| r.sections.passed_over = |r, section| passed_with(r, section, 0, 0xFC);
    EncryptedPassed: "an encrypted section is read on",
        |r| r.sections.passed_over = |r, section| passed_with(r, section, 4, section[4] & 0x7F);
    EncryptedBad: "an encrypted section gives 117",
        |r| r.sections.passed_over = |r, section| but(r, section, |name| name == "nothing: encrypted", Comes::Bad);
    OtherCommandBad: "another command gives 117", |r| r.sections.passed_over = other_command_bad;
    SchedulePassed: "a splice_schedule is passed without a time",
        |r| r.sections.passed_over = |r, section| but(r, section, |name| name == "nothing: splice_schedule", Comes::Timeless);
    ProtocolChecked: "a protocol_version other than 0 writes nothing", |r| r.sections.passed_over = protocol_checked;
    LengthsBeforeSilence: "lengths are checked before the mode", |r| r.sections.component_mode = lengths_before_silence;
    ComponentPassed: "component mode is passed without a time",
        |r| r.sections.component_mode = |_, _| (Comes::Timeless, "passes: component mode");
    ComponentBad: "component mode gives 117", |r| r.sections.component_mode = |_, _| (Comes::Bad, "bad: component mode");
    ShortIsComponent: "a splice_insert without its flags writes nothing", |r| r.sections.splice_insert = short_is_component;
    ModeByCommandLength: "the flags must lie within splice_command_length",
        |r| r.sections.splice_insert = mode_by_command_length;
    CancelledReadOn: "a cancelled splice_insert is read on for a time", |r| r.sections.splice_insert = cancelled_read_on;
    CancelledNothing: "a cancelled splice_insert writes nothing", |r| r.sections.splice_insert = cancelled_nothing;
    TimeAlwaysFive: "a splice_time() has 5 bytes without a pts_time too",
        |r| r.sections.splice_time = |r, bytes| right::splice_time(r, bytes).map(|(_, time)| (5, time));
    ImmediateHasTime: "an immediate splice_insert has a splice_time()",
        |r| r.sections.program_mode = |r, flags, command| right::program_mode(r, flags & !0x10, command);
    DurationUnread: "duration_flag adds nothing to the size",
        |r| r.sections.program_mode = |r, flags, command| right::program_mode(r, flags & !0x20, command);
    NotGivenIsLength: "0xFFF is taken as a length", |r| r.sections.wrong_length = not_given_is_length;
    NotGivenPasses: "with 0xFFF the syntax is not held to the section", |r| {
        (r.sections.program_mode, r.sections.wrong_loop) = (not_given_passes, not_given_has_no_loop)
    };
    CommandLengthUnchecked: "splice_command_length is not compared", |r| r.sections.wrong_length = |_, _, _| None;
    LongerCommandTaken: "a splice_command_length above the size is taken", |r| r.sections.wrong_length = longer_command_taken;
    CommandOverCrc: "a command may reach over descriptor_loop_length", |r| r.sections.commanded = command_over_crc;
    LoopUnchecked: "descriptor_loop_length is not checked", |r| r.sections.wrong_loop = |_, _, _| None;
    LoopOneMore: "descriptor_loop_length may reach into CRC_32", |r| r.sections.wrong_loop = loop_one_more;
    LoopMustFill: "bytes behind the descriptors give 117", |r| r.sections.wrong_loop = loop_must_fill;
    AdjustmentLeftOut: "pts_adjustment is left out", |r| r.sections.adjustment = |_, _| 0;
    AdjustmentOf32: "bit 32 of pts_adjustment is dropped",
        |r| r.sections.adjustment = |r, section| right::adjustment(r, section) % (1 << 32);
    TimeOf32: "bit 32 of pts_time is dropped", |r| r.sections.splice_time = time_of_32;
    SumNotModulo: "the sum is not taken modulo 2^33",
        |r| (r.sections.moment, r.sections.exact) = (sum_not_modulo, sum_not_wrapped);
    AdjustmentIsTime: "pts_adjustment is the time where there is no pts_time", |r| r.sections.moment = adjustment_is_time;
    Nearest: "the nearest of the cue's moments, before or after", |r| r.sections.exact = nearest;
    FirstAfter: "the first moment after the given PTS", |r| r.sections.exact = first_after;
    PtsRefused: "a PTS of 2^33 or more is refused with 8", |r| r.cue_refused = pts_refused;
    RoundedUp: "the time is rounded up",
        |r| r.sections.exact = |r, cue, given| right::exact(r, cue, given).next_multiple_of(MICROSECOND);
    RoundedToNearest: "the time is rounded to the nearest microsecond",
        |r| r.sections.exact = |r, cue, given| right::exact(r, cue, given) + 4;
    ThroughMilliseconds: "the ticks are taken in milliseconds", |r| r.sections.exact = through_milliseconds;
    PastWrapped: "an instant past the range wraps",
        |r| r.sections.time_of = |r, comes, given| past_by(r, comes, given, |exact| exact % HORIZON);
    PastClamped: "an instant past the range is the last microsecond",
        |r| r.sections.time_of = |r, comes, given| past_by(r, comes, given, |_| HORIZON - 1);
    LastSecondPast: "the last second counts as past the range", |r| r.sections.time_of = last_second_past;
    TimelessIsGiven: "without a pts_time the given instant is written", |r| r.sections.time_of = timeless_is_given;
    OpenServed: "open connections that are not initialised are served",
        |r| r.cue_to = |s| (0..4).filter(|conn| s.open[usize::from(*conn)]).collect();
    ClosedServed: "a connection closed since its Init is served",
        |r| r.cue_to = |s| (0..4).filter(|conn| s.initialised[usize::from(*conn)]).collect();
    FromThreeDown: "the connections from 3 downward", |r| r.cue_to = |s| cue::cue_to(s).into_iter().rev().collect();
    BadToFirst: "117 to the first initialised connection only", |r| r.cue = bad_to_first;
    WithoutCrc: "the section is sent without its CRC_32", |r| r.cue = without_crc;
    EightFirst: "8 before 2",
        |r| r.cue_refused = |s, given, room| match given.micros { 1_000_000.. => Some(8), _ => cue::cue_refused(s, given, room) };
    ElevenFirst: "11 before 8", |r| r.cue_refused = eleven_first;
    Twentieth: "20 bytes are refused", |r| r.sections.fits = |_, section| fits_by(section, LEAST + 1, MOST, 12);
    Nineteen: "19 bytes are taken", |r| r.sections.fits = |_, section| fits_by(section, LEAST - 1, MOST, 12);
    FiveHundredTwelve: "512 bytes are refused", |r| r.sections.fits = |_, section| fits_by(section, LEAST, MOST - 1, 12);
    FiveHundredThirteen: "513 bytes are taken", |r| r.sections.fits = |_, section| fits_by(section, LEAST, MOST + 1, 12);
    LongerTaken: "bytes behind the section are left over", |r| r.sections.fits = longer_taken;
    LengthOf10: "section_length has 10 bits", |r| r.sections.fits = |_, section| fits_by(section, LEAST, MOST, 10);
    ClockBrought: "a cue brings the clock to the given instant", |r| r.cue = clock_brought;
}

impl Miscue {
    /// Its name on a command line.
    pub fn name(self) -> String {
        format!("cue-{}", dashed(&format!("{self:?}")))
    }

    pub fn named(name: &str) -> Option<Miscue> {
        let mut all = MISCUES.iter().map(|(miscue, _)| *miscue);
        all.find(|miscue| miscue.name() == name)
    }

    pub fn rules(self) -> &'static Rules {
        self.made()
    }
}

/// The CRC with another first register, polynomial or order of bits.
pub fn crc_by(bytes: &[u8], mut register: u32, polynomial: u32, places: [u8; 8]) -> u32 {
    for (byte, place) in bytes.iter().flat_map(|byte| places.map(|place| (byte, place))) {
        let highest = (register >> 31) as u8;
        register <<= 1;
        if highest != byte >> place & 1 {
            register ^= polynomial;
        }
    }
    register
}

const DOWN: [u8; 8] = [7, 6, 5, 4, 3, 2, 1, 0];

pub fn crc_inverted(r: &Sections, section: &[u8]) -> bool {
    let (front, last) = section.split_at(section.len() - 4);
    (!r.crc(front)).to_be_bytes() == last
}

pub fn silent_crc(r: &Sections, section: &[u8]) -> Verdict {
    match r.right(section) {
        true => right::judged(r, section),
        false => (Comes::Nothing, "bad CRC_32"),
    }
}

pub fn silence_before_crc(r: &Sections, section: &[u8]) -> Verdict {
    let verdict = r.passed_over(section).unwrap_or_else(|| r.commanded(section));
    match verdict.0 == Comes::Nothing {
        true => verdict,
        false => right::judged(r, section),
    }
}

/// What is passed over, of a section changed in one byte.
pub fn passed_with(r: &Sections, section: &[u8], at: usize, byte: u8) -> Option<Verdict> {
    let mut other = section.to_vec();
    other[at] = byte;
    right::passed_over(r, &other)
}

/// The verdict as it is, or another of these.
pub fn but(r: &Sections, section: &[u8], which: fn(&str) -> bool, comes: Comes) -> Option<Verdict> {
    right::passed_over(r, section).map(|(right, name)| (if which(name) { comes } else { right }, name))
}

pub fn other_command_bad(r: &Sections, section: &[u8]) -> Option<Verdict> {
    but(r, section, |name| name != "nothing: encrypted" && name != "nothing: another table", Comes::Bad)
}

pub fn protocol_checked(r: &Sections, section: &[u8]) -> Option<Verdict> {
    match section[3] {
        0 => right::passed_over(r, section),
        _ => Some((Comes::Nothing, "nothing: another protocol_version")),
    }
}

pub fn lengths_before_silence(r: &Sections, section: &[u8]) -> Verdict {
    match crate::people::shown::component_lengths_fit(section) {
        true => right::component_mode(r, section),
        false => (Comes::Bad, "bad: component mode"),
    }
}

pub fn short_is_component(r: &Sections, section: &[u8], command: &[u8]) -> Result<Syntax, Verdict> {
    right::splice_insert(r, section, command).map_err(|(comes, name)| match name {
        "bad: a splice_insert without its flags" => (Comes::Nothing, name),
        _ => (comes, name),
    })
}

pub fn mode_by_command_length(r: &Sections, section: &[u8], command: &[u8]) -> Result<Syntax, Verdict> {
    let cancelled = command.get(4).is_some_and(|byte| byte & 0x80 != 0);
    match !cancelled && sections::command_length(section) < 6 {
        true => Err((Comes::Bad, "bad: a splice_insert without its flags")),
        false => right::splice_insert(r, section, command),
    }
}

pub fn cancelled_read_on(r: &Sections, section: &[u8], command: &[u8]) -> Result<Syntax, Verdict> {
    let mut other = command.to_vec();
    if let Some(byte) = other.get_mut(4) {
        *byte &= 0x7F;
    }
    right::splice_insert(r, section, &other)
}

pub fn cancelled_nothing(r: &Sections, section: &[u8], command: &[u8]) -> Result<Syntax, Verdict> {
    match right::splice_insert(r, section, command)? {
        Syntax { name: "passes: cancelled", .. } => Err((Comes::Nothing, "nothing: cancelled")),
        syntax => Ok(syntax),
    }
}

pub fn time_of_32(r: &Sections, bytes: &[u8]) -> Option<(usize, Option<u64>)> {
    right::splice_time(r, bytes).map(|(size, time)| (size, time.map(|time| time % (1 << 32))))
}

/// As if there were room enough behind it.
pub fn not_given_passes(r: &Sections, flags: u8, command: &[u8]) -> Result<Syntax, Verdict> {
    let past = right::program_mode(r, flags, command);
    let timed = flags & 0x10 != 0 || r.splice_time(&command[6..]).is_some();
    match past.is_err() && timed {
        true => right::program_mode(r, flags, &[command, &[0; 14]].concat()),
        false => past,
    }
}

/// And then descriptor_loop_length, if there is none, is not looked at.
pub fn not_given_has_no_loop(r: &Sections, section: &[u8], size: usize) -> Option<&'static str> {
    match COMMAND + size + 2 > section.len() {
        true => None,
        false => right::wrong_loop(r, section, size),
    }
}

pub fn not_given_is_length(_: &Sections, section: &[u8], size: usize) -> Option<&'static str> {
    (usize::from(sections::command_length(section)) != size).then_some("bad: splice_command_length")
}

pub fn longer_command_taken(r: &Sections, section: &[u8], size: usize) -> Option<&'static str> {
    right::wrong_length(r, section, size).filter(|_| usize::from(sections::command_length(section)) < size)
}

pub fn command_over_crc(r: &Sections, section: &[u8]) -> Verdict {
    let command = &section[COMMAND..(section.len() - BEHIND + 2).max(COMMAND)];
    let syntax = right::syntax_of(r, section, command);
    syntax.map_or_else(|verdict| verdict, |syntax| right::fitted(r, section, syntax))
}

pub fn loop_one_more(r: &Sections, section: &[u8], size: usize) -> Option<&'static str> {
    let (end, crc) = sections::loop_end(section, size);
    right::wrong_loop(r, section, size).filter(|_| end > crc + 1)
}

pub fn loop_must_fill(_: &Sections, section: &[u8], size: usize) -> Option<&'static str> {
    let (end, crc) = sections::loop_end(section, size);
    (end != crc).then_some("bad: descriptor_loop_length")
}

pub fn sum_not_modulo(r: &Sections, section: &[u8], time: Option<u64>) -> Comes {
    time.map_or(Comes::Timeless, |time| Comes::At(time + r.adjustment(section)))
}

/// Where the sum was not taken modulo 2^33 nothing is taken through the rollover.
pub fn sum_not_wrapped(r: &Sections, cue: u64, given: &Given) -> u64 {
    match cue >= WRAP {
        true => ninths(given.seconds, given.micros) + TICK * cue.saturating_sub(given.pts % WRAP),
        false => right::exact(r, cue, given),
    }
}

pub fn adjustment_is_time(r: &Sections, section: &[u8], time: Option<u64>) -> Comes {
    match (time, r.adjustment(section)) {
        (None, 1..) => Comes::At(r.adjustment(section)),
        _ => right::moment(r, section, time),
    }
}

pub fn nearest(r: &Sections, cue: u64, given: &Given) -> u64 {
    match sections::ticks(cue, given.pts) {
        ticks if ticks > WRAP / 2 => ninths(given.seconds, given.micros).saturating_sub(TICK * (WRAP - ticks)),
        _ => right::exact(r, cue, given),
    }
}

pub fn first_after(r: &Sections, cue: u64, given: &Given) -> u64 {
    let again = if sections::ticks(cue, given.pts) == 0 { TICK * WRAP } else { 0 };
    right::exact(r, cue, given) + again
}

pub fn through_milliseconds(_: &Sections, cue: u64, given: &Given) -> u64 {
    ninths(given.seconds, given.micros) + sections::ticks(cue, given.pts) / 90 * 1_000 * MICROSECOND
}

/// The time, with another one for an instant past the range.
pub fn past_by(r: &Sections, comes: Comes, given: &Given, past: fn(u64) -> u64) -> (u32, u32) {
    match comes {
        Comes::At(cue) if r.exact(cue, given) >= HORIZON => wire(past(r.exact(cue, given))),
        _ => right::time_of(r, comes, given),
    }
}

pub fn last_second_past(r: &Sections, comes: Comes, given: &Given) -> (u32, u32) {
    match comes {
        Comes::At(cue) if r.exact(cue, given) >= HORIZON - SECOND => (NONE, NONE),
        _ => right::time_of(r, comes, given),
    }
}

pub fn timeless_is_given(r: &Sections, comes: Comes, given: &Given) -> (u32, u32) {
    match comes {
        Comes::At(_) => right::time_of(r, comes, given),
        _ => (given.seconds, given.micros),
    }
}

pub fn bad_to_first(s: &mut Splicer, given: &Given, room: usize) -> Result<Vec<Record>, u8> {
    let mut out = cue::cue(s, given, room)?;
    if matches!(out.first(), Some(Record { what: What::General { .. }, .. })) {
        out.truncate(1);
    }
    Ok(out)
}

pub fn without_crc(s: &mut Splicer, given: &Given, room: usize) -> Result<Vec<Record>, u8> {
    let mut out = cue::cue(s, given, room)?;
    for record in &mut out {
        if let What::Cue { section, .. } = &mut record.what {
            section.truncate(section.len() - 4);
        }
    }
    Ok(out)
}

pub fn clock_brought(s: &mut Splicer, given: &Given, room: usize) -> Result<Vec<Record>, u8> {
    let out = cue::cue(s, given, room)?;
    if !out.is_empty() || matches!(s.rules.sections.judged(&given.section).0, Comes::At(_) | Comes::Timeless | Comes::Bad) {
        s.clock = s.clock.max(ninths(given.seconds, given.micros));
    }
    Ok(out)
}

pub fn pts_refused(s: &Splicer, given: &Given, room: usize) -> Option<u8> {
    match room >= ROOM && given.pts >= WRAP {
        true => Some(8),
        false => cue::cue_refused(s, given, room),
    }
}

pub fn eleven_first(s: &Splicer, given: &Given, room: usize) -> Option<u8> {
    match room >= ROOM && !s.rules.sections.fits(&given.section) {
        true => Some(11),
        false => cue::cue_refused(s, given, room),
    }
}

/// The lengths that are taken, by the bits of section_length that count.
pub fn fits_by(section: &[u8], least: usize, most: usize, bits: usize) -> bool {
    (least..=most).contains(&section.len()) && section.len() == 3 + sections::section_length(section) % (1 << bits)
}

pub fn longer_taken(r: &Sections, section: &[u8]) -> bool {
    let longer = (LEAST..=MOST).contains(&section.len()) && 3 + sections::section_length(section) < section.len();
    longer || right::fits(r, section)
}
