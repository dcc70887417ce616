//! A channel: one core, whom its four numbers belong to, its recording and its referee. Every call goes through here.

use crate::desk::Desk;
use crate::recording::Recording;
use crate::referee::Referee;
use crate::{time, words};
use splicer::recorder::{Feed, Recorder};
use splicer::{message_id, records, Maps, Refusal, Splicer, CONNECTIONS};
use std::collections::{BTreeMap, VecDeque};

/// Calls that the page shows.
pub const RECENT: usize = 50;

/// Microseconds in a day.
const DAY: u64 = 86_400 * time::SECOND;

/// Longer entries are kept as words for the page, shorter ones as they are.
const LONG: usize = 512;

/// A call for the page.
pub enum Made {
    Entry(Vec<u8>),
    Words(Box<str>),
}

impl Made {
    /// In place of an older one, whose memory it takes.
    fn of(entry: &[u8], older: Option<Made>) -> Made {
        if entry.len() > LONG {
            return Made::Words(words::Entry(entry).to_string().chars().take(LONG).collect::<String>().into());
        }
        let mut kept = match older {
            Some(Made::Entry(kept)) => kept,
            _ => Vec::new(),
        };
        kept.clear();
        kept.extend_from_slice(entry);
        Made::Entry(kept)
    }

    pub fn text(&self) -> String {
        match self {
            Made::Entry(entry) => words::Entry(entry).to_string(),
            Made::Words(words) => words.to_string(),
        }
    }
}

/// Its name and the sections of its two feeds.
#[derive(Clone, Debug, Default, PartialEq, Eq)]
pub struct Spec {
    pub name: Vec<u8>,
    pub primary: Vec<u8>,
    pub insertion: Vec<u8>,
}

/// A connection that holds a number.
#[derive(Clone, Debug, PartialEq, Eq)]
pub struct Seat {
    pub peer: usize,
    pub address: String,
    pub initialised: bool,
}

/// What is counted for /metrics.
#[derive(Default)]
pub struct Counts {
    pub calls: u64,
    /// House numbers, and results other than 100 of a message's own answer.
    pub refusals: BTreeMap<(&'static str, u16), u64>,
}

pub struct Channel {
    pub spec: Spec,
    pub shown: String,
    pub splicer: Splicer,
    pub clock: u64,
    pub seats: [Option<Seat>; CONNECTIONS],
    pub recording: Option<Recording>,
    pub referee: Referee,
    pub counts: Counts,
    /// The last calls with their records, and when they were made.
    pub recent: VecDeque<(u64, Made)>,
    /// The day that the clock is in, and the primary time at its begin.
    pub day: (u64, u64),
    /// Whether it was called since it was asked when it is next due.
    pub called: bool,
    entry: Vec<u8>,
}

impl Channel {
    pub fn new(spec: Spec, mut recording: Option<Recording>) -> Channel {
        let name = splicer::name(&spec.name);
        // a name of 1 to 31 bytes is never refused
        let (splicer, _) = Splicer::fresh(&name);
        let heads = heads(&spec, &name);
        if let Some(recording) = &mut recording {
            heads.iter().for_each(|head| recording.add(head));
        }
        let mut referee = Referee::fresh(&name, heads.concat().len());
        if !spec.primary.is_empty() || !spec.insertion.is_empty() {
            referee.leave("sections");
        }
        let (shown, counts, recent) = (words::text(&spec.name), Counts::default(), VecDeque::new());
        let (seats, entry) = (Default::default(), Vec::new());
        Channel { spec, shown, splicer, clock: 0, seats, recording, referee, counts, recent, day: (0, 0), called: false, entry }
    }

    /// The first tick that does anything, if one does.
    pub fn due(&self) -> Option<u64> {
        let (seconds, micros) = self.splicer.due()?.tick?;
        Some(time::whole(seconds, micros))
    }

    /// The lowest number that nobody holds.
    pub fn free(&self) -> Option<usize> {
        self.seats.iter().position(Option::is_none)
    }

    /// Brings the clock to a time; one that is there already needs no call.
    pub fn bring(&mut self, to: u64, desk: &mut Desk) {
        if to <= self.clock {
            return;
        }
        if to / DAY > self.day.0 {
            self.day = (to / DAY, self.primary_at(to / DAY * DAY));
        }
        self.clock = to;
        let ((seconds, micros), entry) = (time::parts(to), &mut self.entry);
        entry.clear();
        let mut recorder = Recorder::new(|bytes: &[u8]| entry.extend_from_slice(bytes));
        let reply = recorder.tick(&mut self.splicer, seconds, micros, &mut desk.out[..]).map(<[u8]>::len);
        self.made(reply, desk);
    }

    /// The primary time up to an instant that is not before the clock, in ninths: what a core of the same state would say there.
    pub fn primary_at(&self, to: u64) -> u64 {
        self.at(to).primary()
    }

    /// The primary time at the begin of the day that a time is in, which is not before the clock.
    pub fn day_begin(&self, now: u64) -> u64 {
        if now / DAY > self.day.0 {
            self.primary_at(now / DAY * DAY)
        } else {
            self.day.1
        }
    }

    /// A copy of the core, brought to a time.
    pub fn at(&self, to: u64) -> Splicer {
        let mut copy = self.splicer.clone();
        let ((seconds, micros), mut out) = (time::parts(to), [0; splicer::OUT]);
        // an earlier time is refused, and then the copy is as the clock has it
        let _ = copy.tick(seconds, micros, &mut out);
        copy
    }

    pub fn open(&mut self, number: usize, seat: Seat, desk: &mut Desk) {
        self.seats[number] = Some(seat);
        let entry = &mut self.entry;
        entry.clear();
        let mut recorder = Recorder::new(|bytes: &[u8]| entry.extend_from_slice(bytes));
        let reply = recorder.open(&mut self.splicer, number as u32).map(|()| 0);
        self.made(reply, desk);
    }

    /// The connection is gone: its number is free again, and what the core writes is logged and not sent.
    pub fn close(&mut self, number: usize, desk: &mut Desk) {
        self.seats[number] = None;
        let entry = &mut self.entry;
        entry.clear();
        let mut recorder = Recorder::new(|bytes: &[u8]| entry.extend_from_slice(bytes));
        let reply = recorder.close(&mut self.splicer, number as u32, &mut desk.out[..]).map(<[u8]>::len);
        self.made(reply, desk);
    }

    /// The first message of what was read. Gives the bytes consumed.
    pub fn message(&mut self, number: usize, read: &[u8], desk: &mut Desk) -> Result<usize, Refusal> {
        let maps = Maps { primary: &self.spec.primary, insertion: &self.spec.insertion };
        let entry = &mut self.entry;
        entry.clear();
        let mut recorder = Recorder::new(|bytes: &[u8]| entry.extend_from_slice(bytes));
        let reply = recorder.message_with(&mut self.splicer, number as u32, read, maps, &mut desk.out[..]);
        let reply = reply.map(|handled| (handled.consumed, handled.written.len()));
        if reply == Err(Refusal::Short) {
            return Err(Refusal::Short);
        }
        self.answered(number, desk, reply.map_or(0, |(_, written)| written));
        self.made(reply.map(|(_, written)| written), desk);
        reply.map(|(consumed, _)| consumed)
    }

    /// A section of cues, for every initialised connection.
    pub fn cue(&mut self, section: &[u8], pts: u64, at: (u32, u32), desk: &mut Desk) -> Result<usize, Refusal> {
        let entry = &mut self.entry;
        entry.clear();
        let mut recorder = Recorder::new(|bytes: &[u8]| entry.extend_from_slice(bytes));
        let reply = recorder.cue(&self.splicer, section, (pts, at.0, at.1), &mut desk.out[..]).map(<[u8]>::len);
        self.referee.leave("cues");
        self.made(reply, desk);
        reply
    }

    /// Notes what a message's own answers say: whether its connection is now initialised, and results other than 100.
    fn answered(&mut self, number: usize, desk: &Desk, written: usize) {
        for record in records(&desk.out[..written]).filter(|r| usize::from(r.connection) == number) {
            let init = record.message_id == message_id::INIT_RESPONSE && record.result == 100;
            if let (true, Some(seat)) = (init, &mut self.seats[number]) {
                seat.initialised = true;
            }
            if record.result != 100 && record.result != 0xFFFF {
                *self.counts.refusals.entry(("result", record.result)).or_default() += 1;
            }
        }
    }

    /// After every call: it is recorded, judged, counted, logged, and its records are posted.
    fn made(&mut self, reply: Result<usize, Refusal>, desk: &mut Desk) {
        if let Some(recording) = &mut self.recording {
            recording.add(&self.entry);
        }
        self.counts.calls += 1;
        if let Err(refusal) = reply {
            *self.counts.refusals.entry(("house", u16::from(refusal.number()))).or_default() += 1;
        }
        for record in records(&desk.out[..reply.unwrap_or(0)]) {
            if let Some(Some(seat)) = self.seats.get(usize::from(record.connection)) {
                desk.post.add(seat.peer, record.message);
            }
        }
        if !quiet(&self.entry) {
            desk.log.event(self.clock, "call", Some(&self.shown), words::Entry(&self.entry));
        }
        if self.referee.feed(&self.entry) {
            desk.log.event(self.clock, "REFEREE DIFFERS", Some(&self.shown), &self.referee);
        }
        let older = if self.recent.len() == RECENT { self.recent.pop_front() } else { None };
        self.recent.push_back((self.clock, Made::of(&self.entry, older.map(|(_, made)| made))));
    }

    /// Hands the recording to the system; an error is told once.
    pub fn write(&mut self, desk: &mut Desk) {
        let written = self.recording.as_mut().map_or(Ok(()), Recording::write);
        if let Err(said) = written {
            desk.log.event(self.clock, "recording ended", Some(&self.shown), &said);
        }
    }
}

/// What stands at the front of its recording: a plain CH1 recording is one of 02, CR 14.
fn heads(spec: &Spec, name: &[u8; splicer::NAME]) -> Vec<Vec<u8>> {
    let mut heads = Vec::new();
    if spec.name != b"CH1" {
        heads.push(recorded(|recorder| recorder.name(name)));
    }
    for (feed, section) in [(Feed::Primary, &spec.primary), (Feed::Insertion, &spec.insertion)] {
        if !section.is_empty() {
            heads.push(recorded(|recorder| recorder.section(feed, section)));
        }
    }
    heads
}

/// An entry by itself.
fn recorded(record: impl FnOnce(&mut Recorder<&mut dyn FnMut(&[u8])>)) -> Vec<u8> {
    let mut entry = Vec::new();
    record(&mut Recorder::new(&mut |bytes: &[u8]| entry.extend_from_slice(bytes)));
    entry
}

/// Ticks that wrote nothing and Alive_Requests are not logged: they are no events.
fn quiet(entry: &[u8]) -> bool {
    matches!(entry, [0x54, ..] if entry.len() == 10) || matches!(entry, [0x4D, _, 0, 5, ..])
}
