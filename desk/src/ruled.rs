//! What the rules give for the calls of a recording, by the second program, and where the records
//! found differ from that.

use crate::recording::{items, Call, Entry, Item, Recording};
use crate::time::{MICRO, SECOND};
pub use model::aside::{aside, Step};
use model::cue_call::{judged, Comes, Given};
use model::records;
use model::referee::Player;
use model::rules::{State, ROOM};
use std::collections::BTreeMap;

/// A second: the PTS of a cue lies so far behind the last instant that the time field can name.
const PAST: u64 = 90_000;
const WRAP: u64 = 1 << 33;

/// The second program, call after call.
#[derive(Clone)]
pub struct Rules {
    player: Player,
}

impl Rules {
    /// A fresh splicer of a channel of this name.
    pub fn of(name: &[u8; 32]) -> Rules {
        Rules {
            player: Player::fresh(name),
        }
    }

    /// In ninths.
    pub fn clock(&self) -> u64 {
        self.player.driven.splicer.clock
    }

    /// What a call writes; a name and a section write nothing.
    pub fn made(&mut self, entry: &[u8]) -> Vec<u8> {
        match entry {
            [] => Vec::new(),
            entry => self.player.make(entry),
        }
    }

    /// The next start or end, at the first microsecond that is not before it.
    pub fn next(&self) -> Option<u64> {
        let instants = self
            .player
            .driven
            .splicer
            .sessions
            .iter()
            .map(|s| match s.state {
                State::Waiting => s.start,
                State::OnAir | State::Covered => s.end,
            });
        let next = instants.min()?.div_ceil(MICRO) * MICRO;
        (next >> 32 < SECOND).then_some(next)
    }

    /// Brings the clock to an instant, as a whole microsecond.
    pub fn tick(&mut self, at: u64) -> Vec<u8> {
        self.made(&ticked(at))
    }

    /// What a call writes, where what was found may have more that no mark tells of: cues between
    /// calls, and the map section of a GetConfig_Response (docs/DECISIONS.md, 190 and 191).
    fn due(&mut self, entry: &Entry, unmarked: impl FnOnce()) -> Vec<u8> {
        let mut due = self.made(entry.bytes);
        if due == entry.found {
            return due;
        }
        let marked = due.clone();
        let found = items(entry.found, 0);
        let own = found.iter().position(is_cue).unwrap_or(found.len());
        if let (Some(one), true) = (found.first(), own == 1) {
            if with_map(&due, one.bytes) {
                due = one.bytes.to_vec();
            }
        }
        let mut rest = &found[own..];
        while let Some(one) = rest.first() {
            let cue = self.cue(one.bytes);
            let list = items(&cue, 0);
            let same = list.len() <= rest.len()
                && list
                    .iter()
                    .zip(rest)
                    .all(|(due, found)| due.bytes == found.bytes);
            let passed = if same { list.len().max(1) } else { 1 };
            due.extend_from_slice(&cue);
            rest = &rest[passed..];
        }
        if due == entry.found && due != marked {
            unmarked();
        }
        due
    }

    /// What a cue call writes whose first record is this: for the same section, with an instant that
    /// gives the same time if any does. Of a General_Response 117 the section is not known.
    pub fn cue(&mut self, record: &[u8]) -> Vec<u8> {
        let Some((section, time)) = cue_of(record) else {
            return Vec::new();
        };
        let mut given = Given {
            section: section.to_vec(),
            pts: 0,
            seconds: time.0,
            micros: time.1,
        };
        let none = time == (u32::MAX, u32::MAX);
        if none {
            given.micros = 999_999;
        }
        if let (true, Comes::At(cue)) = (whole(section), comes(section)) {
            // the cue's own PTS gives the time itself
            given.pts = if none {
                (cue + WRAP - PAST) % WRAP
            } else {
                cue
            };
        }
        match self.player.driven.splicer.cue(&given, ROOM) {
            Ok(list) => records::all_bytes(&list),
            Err(_) => Vec::new(),
        }
    }
}

/// A tick's mark and time.
pub fn ticked(at: u64) -> Vec<u8> {
    let (seconds, micros) = ((at / SECOND) as u32, (at % SECOND / MICRO) as u32);
    [
        &[0x54, 0][..],
        &seconds.to_be_bytes(),
        &micros.to_be_bytes(),
    ]
    .concat()
}

fn whole(section: &[u8]) -> bool {
    (20..=512).contains(&section.len())
}

fn comes(section: &[u8]) -> Comes {
    judged(section).0
}

/// Cue_Request, or the General_Response that tells of a bad cue. No call writes either.
pub fn is_cue(item: &Item) -> bool {
    cue_of(item.bytes).is_some()
}

/// A splice_null whose CRC_32 is wrong: it gives 117 as any bad section does.
const BAD: [u8; 20] = [
    0xFC, 0x30, 0x11, 0, 0, 0, 0, 0, 0, 0, 0xFF, 0xF0, 0, 0, 0, 0, 0, 0, 0, 0,
];

/// The section and the time of a record that a cue call wrote.
fn cue_of(record: &[u8]) -> Option<(&[u8], (u32, u32))> {
    let word = |at: usize| {
        u32::from_be_bytes([record[at], record[at + 1], record[at + 2], record[at + 3]])
    };
    match record.get(2..8)? {
        [0, 0x0C, _, _, _, _] if record.len() >= 18 && record[0] == 0x52 => {
            Some((&record[18..], (word(10), word(14))))
        }
        [0, 0, _, _, 0, 117] if record[0] == 0x52 => Some((&BAD, (0, 0))),
        _ => None,
    }
}

/// Whether a GetConfig_Response is the due one and a map section of 1,024 bytes at most behind it:
/// the card program lends empty ones, a driver the feed's (02, CR 6).
pub fn with_map(due: &[u8], found: &[u8]) -> bool {
    let config = |bytes: &[u8]| bytes.len() >= 10 && bytes[0] == 0x52 && bytes[2..4] == [0, 0x0B];
    let more = found.len().saturating_sub(due.len());
    config(due)
        && config(found)
        && (1..=1_024).contains(&more)
        && due[..4] == found[..4]
        && due[6..] == found[6..due.len()]
}

/// A recording held to the rules.
pub struct Held {
    pub recording: Recording,
    /// What was due of the calls whose records are not that.
    due: BTreeMap<usize, Vec<u8>>,
    /// These calls.
    pub broken: Vec<usize>,
    /// How many calls from the first on are not held to the rules.
    pub unheld: usize,
    /// The first call whose records have cues or a map that no mark tells of.
    pub unmarked: Option<usize>,
}

impl Held {
    /// With `middle` the recording may begin in the middle of a day: it is held to the rules from the
    /// first call on before which every connection was closed.
    pub fn of(recording: Recording, name: &[u8; 32], middle: bool) -> Held {
        let mut due = BTreeMap::new();
        let mut rules = Rules::of(name);
        let unheld = match middle {
            true => known_from(&recording),
            false => 0,
        };
        let mut unmarked = None;
        for (number, entry) in recording.entries().enumerate() {
            if number < unheld {
                let moves = matches!(entry.bytes.first(), Some(0x54 | 0x49 | 0x57));
                if moves && entry.found.first() != Some(&0x45) {
                    rules.made(entry.bytes);
                }
            } else {
                let own = match recording.further {
                    true => rules.made(entry.bytes),
                    false => rules.due(&entry, || _ = unmarked.get_or_insert(number)),
                };
                if let Some(own) = differs(&recording, number, own, middle) {
                    due.insert(number, own);
                }
            }
            for aside in recording.asides(number) {
                rules.made(&aside.bytes);
            }
        }
        let broken = due.keys().copied().collect();
        Held {
            recording,
            due,
            broken,
            unheld,
            unmarked,
        }
    }

    /// What was due of a call.
    pub fn due(&self, number: usize) -> &[u8] {
        match self.due.get(&number) {
            Some(due) => due,
            None => self.recording.entry(number).found,
        }
    }

    pub fn is_broken(&self, call: usize) -> bool {
        self.due.contains_key(&call)
    }
}

/// What was due of a call, if what was found is not that. "at 0x4C the records of the call before must
/// be whole, and a record behind it is that call's".
fn differs(recording: &Recording, number: usize, own: Vec<u8>, middle: bool) -> Option<Vec<u8>> {
    let (entry, asides) = (recording.entry(number), recording.asides(number));
    let lent = asides.iter().any(|aside| aside.bytes[0] == 0x4C);
    let last = number + 1 == recording.count();
    let cut = recording.cut.is_some() && !recording.unread;
    // "the last call before it then needs only the beginning of its due records"
    let due = match last && cut && !lent {
        true => beginning(&own, items(entry.found, 0).len()),
        false => own,
    };
    // what ended before is not known: what is said of it may be more
    let asks = entry.bytes.get(2..4) == Some(&[0, 3]) && middle;
    let between = asides.iter().any(|aside| aside.between);
    (between || due != entry.found && !asks).then_some(due)
}

/// The first records of these.
fn beginning(written: &[u8], count: usize) -> Vec<u8> {
    let list = items(written, 0);
    let kept = list.iter().take(count).flat_map(|item| item.bytes.to_vec());
    kept.collect()
}

/// The connections that were in use before the recording began: a call or a record names them before
/// they were opened in it.
pub fn used_before(recording: &Recording) -> [bool; 4] {
    let (mut known, mut used) = ([false; 4], [false; 4]);
    for entry in recording.entries() {
        let refused = entry.found.first() == Some(&0x45);
        let mut named: Vec<u8> = items(entry.found, 0)
            .iter()
            .filter(|item| item.bytes[0] == 0x52)
            .map(|item| item.bytes[1])
            .collect();
        match entry.call() {
            Some(Call::Open(conn)) if !refused => known[usize::from(conn % 4)] |= conn < 4,
            Some(Call::Message(conn, _) | Call::Close(conn)) if !refused => named.push(conn),
            _ => {}
        }
        for conn in named.into_iter().filter(|conn| *conn < 4).map(usize::from) {
            used[conn] |= !known[conn];
            known[conn] = true;
        }
    }
    used
}

/// The first call before which every connection was closed.
fn known_from(recording: &Recording) -> usize {
    let mut open = used_before(recording);
    if open == [false; 4] {
        return 0;
    }
    for (number, entry) in recording.entries().enumerate() {
        if number > 0 && open == [false; 4] {
            return number;
        }
        let good = entry.found.first() != Some(&0x45);
        match entry.call() {
            Some(Call::Open(conn)) if good && conn < 4 => open[usize::from(conn)] = true,
            Some(Call::Close(conn)) if good && conn < 4 => open[usize::from(conn)] = false,
            _ => {}
        }
    }
    recording.count()
}
