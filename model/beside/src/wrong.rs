//! Deliberate faults, to show that the comparison notices them: those of the second program's list,
//! and some in what the core is handed or seen to do.

use crate::calls::{Act, Call, Desk, Said, Sections};
use crate::looks::{State, Told};
use model::hold::faults::{Fault, Miscue, FAULTS, MISCUES};
use model::hold::watch::SEEN;
use model::rules::Rules;
use splicer::{message_id as id, records, Record};
use splicer::{Refusal, Splicer, CONNECTIONS, HEADER, NAME, OUT};
use std::borrow::Cow;

#[derive(Clone, Copy, Debug, PartialEq, Eq)]
pub enum Wrong {
    Nothing,
    /// A fault of the second program's list.
    Model(Fault),
    /// A mistake of the second program about cues (02, CR 7).
    Cue(Miscue),
    /// A fault of `CORE`, by its name.
    Core(&'static str),
}

/// What a fault on the core's side is of: its calls, the rows, map sections, waiting counts, places moved and primary time that it
/// is read to keep, what a driver reads to sleep, its cue calls.
#[derive(Clone, Copy, PartialEq, Eq)]
pub enum Of {
    Calls,
    Rows,
    Maps,
    Counts,
    Moves,
    Primary,
    Reads,
    Cues,
}

/// The faults on the core's side, in what it is handed or seen to do.
pub const CORE: &[(Of, &str, &str)] = &[
    (Of::Calls, "house-number", "5 told as 4"),
    (Of::Calls, "consumed", "a byte more consumed than the message has"),
    (Of::Calls, "written-short", "the last written byte not counted"),
    (Of::Calls, "byte-changed", "a written byte changed"),
    (Of::Calls, "byte-behind", "a byte behind the written ones changed"),
    (Of::Calls, "byte-before", "a byte before the buffer changed"),
    (Of::Calls, "refused-changes", "a refused call opens a connection"),
    (Of::Calls, "room", "an output buffer of 4,095 bytes taken"),
    (Of::Calls, "cut-message", "the missing bytes of a message taken as zeros"),
    (Of::Calls, "connection", "connection 256 taken as 0"),
    (Of::Calls, "name", "a name without a zero byte cut to 31 bytes"),
    (Of::Calls, "shared", "two splicers with one state"),
    (Of::Rows, "rows-oldest", "the page filled from the oldest up"),
    (Of::Rows, "rows-stale", "an unused row keeps a number that it was lent with"),
    (Of::Rows, "rows-unmarked", "an unused row marked as kept"),
    (Of::Rows, "rows-connection", "a row's connection not written"),
    (Of::Rows, "rows-fifteen", "fifteen rows taken"),
    (Of::Rows, "rows-more", "32 rows taken"),
    (Of::Rows, "rows-behind", "a row behind the sixteenth written"),
    (Of::Maps, "section-1025", "sections of 1,025 bytes taken"),
    (Of::Maps, "section-1024", "a section of 1,024 bytes refused"),
    (Of::Maps, "section-insertion", "the insertion's section of any length taken"),
    (Of::Maps, "section-behind-5", "10 behind 5"),
    (Of::Maps, "section-before-7", "10 before 7"),
    (Of::Maps, "section-other", "GetConfig with the other section"),
    (Of::Maps, "map-other", "the other section given back"),
    (Of::Maps, "map-shorter", "a section given back without its last byte"),
    (Of::Counts, "count-start", "a start leaves its session counted"),
    (Of::Counts, "count-failed-start", "a failed start leaves its session counted"),
    (Of::Counts, "count-failed-followers", "a failed start leaves its followers counted"),
    (Of::Counts, "count-ended-followers", "an equal start leaves the ended one's followers counted"),
    (Of::Counts, "count-evicted", "an eviction leaves its session counted"),
    (Of::Counts, "count-evicted-followers", "an eviction leaves the followers counted"),
    (Of::Counts, "count-aborted-followers", "an abort leaves the followers counted"),
    (Of::Counts, "count-elsewhere", "an acceptance raises the next connection's count"),
    (Of::Counts, "count-close", "a close leaves its count as it was"),
    (Of::Moves, "moved-earlier", "moved counts those that start earlier"),
    (Of::Moves, "moved-all", "moved counts all that wait"),
    (Of::Moves, "moved-evicted", "moved counts the followers evicted"),
    (Of::Moves, "moved-itself", "moved counts the new session too"),
    (Of::Moves, "moved-refused", "1 moved by a request with 109"),
    (Of::Primary, "primary-clock", "the clock read for the primary channel's time"),
    (Of::Primary, "primary-ticks", "the primary channel's time read in ticks"),
    (Of::Reads, "air-connection", "the one on air read under connection 0"),
    (Of::Reads, "air-played", "no time on air read"),
    (Of::Reads, "due-later", "the instant read a ninth later"),
    (Of::Reads, "due-tick-later", "the tick read a microsecond later"),
    (Of::Reads, "due-never", "an instant that no tick reaches read as none"),
    (Of::Reads, "sessions-fewer", "the last session not read"),
    (Of::Reads, "sessions-covered", "a covered session read as waiting"),
    (Of::Reads, "sessions-order", "those that wait read from the last start on"),
    (Of::Cues, "cue-result", "a Cue_Request with Result 100"),
    (Of::Cues, "cue-consumed", "a cue call consumes its section"),
    (Of::Cues, "cue-opens", "a good cue call opens a connection"),
];

/// How far a fault's waiting counts have gone from the true ones, and the true ones before the call.
#[derive(Clone, Default)]
pub struct Drift {
    by: [i64; CONNECTIONS],
    before: [u64; CONNECTIONS],
}

/// The faults on the core's side of these.
fn core(of: &[Of]) -> Vec<Wrong> {
    CORE.iter().filter(|(own, ..)| of.contains(own)).map(|(_, name, _)| Wrong::Core(name)).collect()
}

/// Every fault that must be noticed.
pub fn all() -> Vec<Wrong> {
    let model = FAULTS.iter().map(|(fault, _)| Wrong::Model(*fault));
    model.chain(core(&[Of::Calls, Of::Rows, Of::Maps])).chain(reporting()).collect()
}

/// Every mistake about cues.
pub fn cues() -> Vec<Wrong> {
    let model = MISCUES.iter().map(|(miscue, _)| Wrong::Cue(*miscue));
    model.chain(core(&[Of::Cues])).collect()
}

/// The faults in the numbers beside the records: the records alone give them away too.
pub fn reporting() -> Vec<Wrong> {
    core(&[Of::Counts, Of::Moves, Of::Primary, Of::Reads])
}

/// The fault of this name.
pub fn named(text: &str) -> Option<Wrong> {
    let mut all = all().into_iter().chain(cues());
    all.find(|wrong| match wrong {
        Wrong::Model(fault) => fault.name() == text,
        Wrong::Cue(miscue) => miscue.name() == text,
        Wrong::Core(name) => *name == text,
        Wrong::Nothing => false,
    })
}

impl Wrong {
    pub fn line(self) -> String {
        match self {
            Wrong::Nothing => "no fault".to_string(),
            Wrong::Model(fault) => format!("{}: {}", fault.name(), fault.text()),
            Wrong::Cue(miscue) => format!("{}: {}", miscue.name(), miscue.text()),
            Wrong::Core(name) => {
                let text = CORE.iter().find(|(_, own, _)| *own == name);
                format!("{name}: {}", text.map_or("", |(.., text)| text))
            }
        }
    }

    /// The rules that the second program goes by: the right ones are counted.
    pub fn rules(self) -> &'static Rules {
        match self {
            Wrong::Model(fault) => fault.rules(),
            Wrong::Cue(miscue) => miscue.rules(),
            _ => &SEEN,
        }
    }

    pub fn is(self, name: &str) -> bool {
        matches!(self, Wrong::Core(own) if own == name)
    }

    pub fn fresh(self, name: &[u8; NAME]) -> (Splicer, Result<(), Refusal>) {
        let mut name = *name;
        if self.is("name") && !name.contains(&0) {
            name[NAME - 1] = 0;
            return (Splicer::fresh(&name).0, Err(Refusal::BadName));
        }
        Splicer::fresh(&name)
    }

    /// What the core is handed in place of the call.
    pub fn handed(self, act: &Act) -> Cow<'_, Act> {
        if !matches!(self, Wrong::Core(_)) {
            return Cow::Borrowed(act);
        }
        let mut act = act.clone();
        if self.is("room") && act.room == OUT - 1 {
            act.room = OUT;
        }
        self.lent(&mut act.sections);
        match &mut act.call {
            Call::Message(_, bytes) if self.is("cut-message") && bytes.len() >= HEADER => {
                let size = usize::from(u16::from_be_bytes([bytes[2], bytes[3]]));
                bytes.resize(bytes.len().max(HEADER + size), 0);
            }
            Call::Open(conn) | Call::Close(conn) | Call::Message(conn, _) if self.is("connection") && *conn > 255 => {
                *conn %= 256;
            }
            _ => {}
        }
        Cow::Owned(act)
    }

    /// Spoils the sections lent to a message.
    fn lent(self, sections: &mut Sections) {
        let Wrong::Core(name) = self else {
            return;
        };
        let Sections { primary, insertion } = sections;
        match name {
            "section-1025" => {
                primary.truncate(1_024);
                insertion.truncate(1_024);
            }
            "section-1024" if primary.len() == 1_024 => primary.push(0),
            "section-1024" if insertion.len() == 1_024 => insertion.push(0),
            "section-insertion" => insertion.truncate(1_024),
            "section-other" => std::mem::swap(primary, insertion),
            _ => {}
        }
    }

    /// Spoils the section given back.
    pub fn given<'m>(self, found: &'m [u8], other: &'m [u8]) -> &'m [u8] {
        match self {
            Wrong::Core("map-other") => other,
            Wrong::Core("map-shorter") => &found[..found.len().saturating_sub(1)],
            _ => found,
        }
    }

    /// Spoils what the call gave.
    pub fn told(self, act: &Act, said: &mut Said, core: &mut Splicer, desk: &mut Desk) {
        let Wrong::Core(name) = self else {
            return;
        };
        let begin = desk.begin();
        let end = begin + said.written.len();
        let good_message = said.refused == 0 && matches!(act.call, Call::Message(..));
        let good_cue = said.refused == 0 && matches!(act.call, Call::Cue(_));
        match name {
            "cue-result" if good_cue && said.written.get(3) == Some(&0x0C) => {
                said.written[6..8].copy_from_slice(&[0, 100]);
                desk.lent[begin + 6..begin + 8].copy_from_slice(&[0, 100]);
            }
            "cue-consumed" if good_cue => said.consumed = 20,
            "cue-opens" if good_cue => {
                let _ = (0..4).find(|conn| core.open(*conn).is_ok());
            }
            "house-number" if said.refused == 5 => said.refused = 4,
            "section-behind-5" if said.refused == 10 && cut(&act.call) => said.refused = 5,
            "section-before-7" if said.refused == 7 && act.sections.longest() > 1_024 => {
                said.refused = 10;
            }
            "consumed" if good_message => said.consumed += 1,
            "written-short" => drop(said.written.pop()),
            "byte-changed" if end > begin => desk.lent[end - 1] ^= 1,
            "byte-behind" => desk.lent[end] ^= 1,
            "byte-before" => desk.lent[begin - 1] ^= 1,
            "refused-changes" if said.refused != 0 => {
                let _ = (0..4).find(|conn| core.open(*conn).is_ok());
            }
            _ => {}
        }
    }

    /// Spoils the number of places moved. `now` are the waiting counts after the call.
    pub fn moved(self, act: &Act, said: &mut Said, now: [u64; CONNECTIONS]) {
        let (Wrong::Core(name), Call::Message(_, bytes)) = (self, &act.call) else {
            return;
        };
        if said.refused != 0 || !is_splice(bytes) {
            return;
        }
        let list: Vec<Record> = records(&said.written).collect();
        let code = list.last().map_or(0, |answer| answer.result);
        let others = now.iter().sum::<u64>().saturating_sub(1) as usize;
        match (name, code) {
            ("moved-earlier", 100) => said.moved = others - said.moved,
            ("moved-all", 100) => said.moved = others,
            ("moved-evicted", 100) => said.moved += list.len().saturating_sub(2),
            ("moved-itself", 100) => said.moved += 1,
            ("moved-refused", 109) => said.moved = 1,
            _ => {}
        }
    }

    /// Spoils the rows of a page.
    pub fn filled(self, rows: &mut [splicer::Row]) {
        let Wrong::Core(name) = self else {
            return;
        };
        let used = rows.iter().filter(|row| row.kept == 1).count();
        match (name, rows.get_mut(used)) {
            ("rows-oldest", _) => rows[..used].reverse(),
            ("rows-stale", Some(row)) => row.session = 7,
            ("rows-unmarked", Some(row)) => row.kept = 1,
            ("rows-connection", _) => rows.iter_mut().for_each(|row| row.connection = 0),
            _ => {}
        }
    }

    /// Spoils the row behind a page.
    pub fn beyond(self, row: &mut splicer::Row) {
        if self.is("rows-behind") {
            row.kept = 0;
        }
    }

    /// The house number or 0 of so many rows.
    pub fn taken(self, count: usize, number: u8) -> u8 {
        match (self, count) {
            (Wrong::Core("rows-fifteen"), 15) | (Wrong::Core("rows-more"), 32) => 0,
            _ => number,
        }
    }

    /// The time on the primary channel that the core is read to keep, or a fault's.
    pub fn primary(self, found: u64, clock: u64) -> u64 {
        match self {
            Wrong::Core("primary-clock") => clock,
            Wrong::Core("primary-ticks") => found / 100,
            _ => found,
        }
    }

    /// Spoils what a driver reads to sleep.
    pub fn read(self, told: &mut Told) {
        let Wrong::Core(name) = self else {
            return;
        };
        let Told { air, due, sessions } = told;
        match (name, air, due) {
            ("air-connection", Some(air), _) => air.0 = 0,
            ("air-played", Some(air), _) => air.7 = 0,
            ("due-later", _, Some((instant, _))) => *instant += 1,
            ("due-tick-later", _, Some((_, Some((_, micros))))) => *micros += 1,
            ("due-never", _, due) if due.is_some_and(|(_, tick)| tick.is_none()) => *due = None,
            ("sessions-fewer", ..) => drop(sessions.pop()),
            ("sessions-covered", ..) => {
                let covered = sessions.iter_mut().find(|s| s.state == State::Covered);
                covered.into_iter().for_each(|s| s.state = State::Waiting);
            }
            ("sessions-order", ..) => {
                let started = sessions.iter().take_while(|s| s.state != State::Waiting).count();
                sessions[started..].reverse();
            }
            _ => {}
        }
    }

    /// The waiting counts that the core is seen to keep after a call: those it has, or a fault's.
    pub fn waiting(self, act: &Act, said: &Said, now: [u64; CONNECTIONS], drift: &mut Drift) -> [u64; CONNECTIONS] {
        let Wrong::Core(name) = self else {
            return now;
        };
        let list: Vec<Record> = records(&said.written).collect();
        for (place, record) in list.iter().enumerate() {
            if forgets(&act.call, place, list.len(), record) == name {
                drift.by[usize::from(record.connection)] += 1;
            }
        }
        match (&act.call, list.last()) {
            (Call::Close(conn), _) if name == "count-close" && said.refused == 0 => {
                drift.by[*conn as usize] += drift.before[*conn as usize] as i64;
            }
            (Call::Message(conn, bytes), Some(answer)) if name == "count-elsewhere" && is_splice(bytes) && answer.result == 100 => {
                drift.by[*conn as usize] -= 1;
                drift.by[(*conn as usize + 1) % CONNECTIONS] += 1;
            }
            _ => {}
        }
        drift.before = now;
        std::array::from_fn(|at| now[at].wrapping_add_signed(drift.by[at]))
    }
}

/// Whether its header is not whole.
fn cut(call: &Call) -> bool {
    matches!(call, Call::Message(_, bytes) if bytes.len() < HEADER)
}

fn is_splice(bytes: &[u8]) -> bool {
    bytes[..2] == id::SPLICE_REQUEST.to_be_bytes()
}

/// The fault that does not lower the count at this record, the one at `place` of a call's `all`.
fn forgets(call: &Call, place: usize, all: usize, record: &Record) -> &'static str {
    let complete = record.message_id == id::SPLICE_COMPLETE_RESPONSE;
    match (call, complete, record.result) {
        (Call::Tick(..), true, 100) if record.data[4] == 0 => "count-start",
        (Call::Tick(..), true, 109) => "count-failed-start",
        (Call::Tick(..), false, 125) => "count-ended-followers",
        (Call::Tick(..), false, _) => "count-failed-followers",
        // A Splice_Request's own answer is the last record; the evicted one comes first.
        (Call::Message(_, bytes), false, 109) if is_splice(bytes) && place + 1 < all => {
            ["count-evicted", "count-evicted-followers"][usize::from(place > 0)]
        }
        // Behind an Abort_Response and the end of the aborted one.
        (Call::Message(..), false, 116) if place > 1 => "count-aborted-followers",
        _ => "",
    }
}
