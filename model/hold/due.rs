//! What an engine that only remembers (02, CR 12) writes and keeps, counted from the card's calls and answers alone, and
//! how often each boundary came.

use crate::hold::watch::table::{Floors, Hits};
use crate::people::card::{self, Call, Stop};
use crate::people::recall::{FULL, LEAST_FREE, LOG, MOST};
use crate::people::record_lines::{items, Item, What};
use crate::rules::LARGEST_SIZE;

/// What came in the streams, with floors for 36 of them, twice all aims.
pub const FLOORS: &Floors = &[
    ("first 13: 256 kept", 12),
    ("first 13: 4,097 bytes free", 2),
    ("first 13: fewer than 4,097 bytes free", 6),
    ("first 13: 256 kept and fewer than 4,098 free", 2),
    ("no 13", 4),
    ("255 kept, and an answer", 12),
    ("255 kept, and a refusal", 5),
    ("255 kept and 4,098 free, and the largest message", 2),
    ("4,098 free, and an answer", 4),
    ("4,098 free, and a refusal", 4),
    ("4,098 free, and the largest message", 2),
    ("4,098 free, and a short record", 2),
    ("4,099 free, and an answer", 2),
    ("4,099 to 4,200 free, and the largest message", 2),
    ("the last byte is a message's", 4),
    ("the last byte is the only one left", 2),
    ("13 for an open", 30),
    ("13 for a close", 15),
    ("13 for a message", 120),
    ("13 for a tick", 30),
    ("13 in place of 1", 20),
    ("13 in place of 3", 5),
    ("13 in place of 6", 20),
    ("13 in place of 7", 2),
    ("13 in place of 8", 6),
    ("13 for the largest message", 25),
    ("13 for an oversize header", 1),
    ("oversize header before any 13", 2),
    ("stops at the end", 2),
    ("stops at a cut record", 5),
    ("stops at another mark", 1),
    ("refused between two kept", 500),
    ("kept open", 200),
    ("kept close", 120),
    ("kept tick with records", 200),
    ("kept tick without a record", 100),
    ("kept tick to the present time", 60),
    ("kept message without an answer", 80),
    ("kept message with 103", 50),
    ("kept message with 120", 25),
    ("kept message with 123", 50),
    ("kept Init with 102 or 104", 25),
    ("kept Init with 100", 180),
    ("kept request with 100", 1300),
    ("kept request with 109, 112, 114 or 121", 120),
    ("kept message of 4,088 bytes", 80),
    ("kept message that ends in zeros", 180),
];

/// What such an engine writes and keeps, counted from the calls and answers of the card alone.
pub struct Due {
    pub calls: Vec<(Call, Vec<u8>)>,
    pub log: Vec<u8>,
    /// The bytes of the input before the first call that gets 13, if one does.
    pub cut: Option<usize>,
    pub hits: Hits,
}

/// "a call gets 13 exactly when the log is not 65,536 bytes, or 256 of the calls before it were good, or the records
/// of those, counted from the calls and answers, leave fewer than 4,098 bytes".
pub fn due(input: &[u8]) -> Due {
    let run = card::run(input);
    let mut due = Due { calls: Vec::new(), log: Vec::new(), cut: None, hits: Hits::default() };
    let mut tally = Tally::default();
    let (mut kept, mut to) = (0, 0);
    for done in run.calls {
        let free = LOG - due.log.len();
        let full = kept >= MOST || free < LEAST_FREE;
        if full {
            tally.behind(&done.call, &done.output);
            if due.cut.is_none() {
                due.cut = Some(to);
                tally.first(kept, free);
            }
            due.calls.push((done.call, vec![0x45, FULL]));
            continue;
        }
        let good = done.output.first() != Some(&0x45);
        tally.answered(&done.call, good, kept, free);
        if good {
            tally.kept(&done.call, &done.output);
            due.log.extend(card::input_bytes(&done.call));
            kept += 1;
        }
        to = done.to;
        due.calls.push((done.call, done.output));
    }
    tally.ended(run.stop, due.cut.is_some());
    due.hits = tally.hits;
    due.log.resize(LOG, 0);
    due
}

impl Due {
    pub fn output(&self) -> Vec<u8> {
        self.calls.iter().flat_map(|(_, out)| out.clone()).collect()
    }

    /// What was written before the first 13, and of it what the good calls wrote.
    pub fn before(&self) -> (Vec<u8>, Vec<u8>) {
        let outputs = self.calls.iter().map(|(_, out)| &out[..]);
        let outputs = outputs.take_while(|out| *out != [0x45, FULL]);
        let all: Vec<&[u8]> = outputs.collect();
        let good = |out: &&&[u8]| out.first() != Some(&0x45);
        let kept: Vec<&[u8]> = all.iter().filter(good).copied().collect();
        (all.concat(), kept.concat())
    }
}

fn is_largest(call: &Call) -> bool {
    matches!(call, Call::Message(_, bytes) if bytes.len() == 8 + LARGEST_SIZE)
}

/// The counts of a stream, and the clock so far.
#[derive(Default)]
struct Tally {
    hits: Hits,
    clock: (u32, u32),
}

impl Tally {
    fn hit(&mut self, name: &'static str) {
        self.hits.hit(name);
    }

    fn first(&mut self, kept: usize, free: usize) {
        self.hit(match (kept >= MOST, free) {
            (true, ..LEAST_FREE) => "first 13: 256 kept and fewer than 4,098 free",
            (true, _) => "first 13: 256 kept",
            (false, 4_097) => "first 13: 4,097 bytes free",
            (false, _) => "first 13: fewer than 4,097 bytes free",
        });
    }

    fn answered(&mut self, call: &Call, good: bool, kept: usize, free: usize) {
        let largest = good && is_largest(call);
        let record = card::input_bytes(call).len();
        match (kept, good) {
            (255, true) => self.hit("255 kept, and an answer"),
            (255, false) => self.hit("255 kept, and a refusal"),
            (1.., false) => self.hit("refused between two kept"),
            _ => {}
        }
        match (free, good) {
            (4_098, true) => self.hit("4,098 free, and an answer"),
            (4_098, false) => self.hit("4,098 free, and a refusal"),
            (4_099, true) => self.hit("4,099 free, and an answer"),
            _ => {}
        }
        match (free, largest) {
            (4_098, true) if kept == 255 => self.hit("255 kept and 4,098 free, and the largest message"),
            (4_098, true) => self.hit("4,098 free, and the largest message"),
            (4_098, false) if good => self.hit("4,098 free, and a short record"),
            (4_099..=4_200, true) => self.hit("4,099 to 4,200 free, and the largest message"),
            _ => {}
        }
        match free - record.min(free) {
            0 if good => self.hit("the last byte is a message's"),
            1 if good => self.hit("the last byte is the only one left"),
            _ => {}
        }
    }

    fn behind(&mut self, call: &Call, output: &[u8]) {
        self.hit(match call {
            Call::Open(_) => "13 for an open",
            Call::Close(_) => "13 for a close",
            Call::Tick(..) => "13 for a tick",
            call if card::is_too_large(call) => "13 for an oversize header",
            Call::Message(..) => "13 for a message",
        });
        if is_largest(call) {
            self.hit("13 for the largest message");
        }
        match output {
            [0x45, 1] => self.hit("13 in place of 1"),
            [0x45, 3] => self.hit("13 in place of 3"),
            [0x45, 6] => self.hit("13 in place of 6"),
            [0x45, 7] => self.hit("13 in place of 7"),
            [0x45, 8] => self.hit("13 in place of 8"),
            _ => {}
        }
    }

    fn kept(&mut self, call: &Call, output: &[u8]) {
        match call {
            Call::Open(_) => self.hit("kept open"),
            Call::Close(_) => self.hit("kept close"),
            Call::Tick(seconds, micros) => self.kept_tick((*seconds, *micros), output),
            Call::Message(_, bytes) => self.kept_message(bytes, output),
        }
    }

    fn kept_tick(&mut self, time: (u32, u32), output: &[u8]) {
        self.hit(match output.is_empty() {
            _ if time == self.clock => "kept tick to the present time",
            true => "kept tick without a record",
            false => "kept tick with records",
        });
        self.clock = time;
    }

    fn kept_message(&mut self, bytes: &[u8], output: &[u8]) {
        if bytes.len() == 8 + LARGEST_SIZE {
            self.hit("kept message of 4,088 bytes");
        }
        if bytes.ends_with(&[0, 0]) {
            self.hit("kept message that ends in zeros");
        }
        let last = items(output).pop();
        let Some(Item::Record(record)) = last else {
            return self.hit("kept message without an answer");
        };
        match record.what {
            What::General { result: 103 } => self.hit("kept message with 103"),
            What::General { result: 120 } => self.hit("kept message with 120"),
            What::General { .. } => self.hit("kept message with 123"),
            What::Init { result: 100, .. } => self.hit("kept Init with 100"),
            What::Init { .. } => self.hit("kept Init with 102 or 104"),
            What::Splice { result: 100, .. } => self.hit("kept request with 100"),
            What::Splice { .. } => {
                self.hit("kept request with 109, 112, 114 or 121");
            }
            _ => {}
        }
    }

    fn ended(&mut self, stop: Stop, full: bool) {
        if !full {
            self.hit("no 13");
        }
        match stop {
            Stop::End => self.hit("stops at the end"),
            Stop::CutRecord => self.hit("stops at a cut record"),
            Stop::OtherMark => self.hit("stops at another mark"),
            Stop::TooLarge if !full => self.hit("oversize header before any 13"),
            Stop::TooLarge => {}
        }
    }
}
