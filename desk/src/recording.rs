//! Reading recordings: each call in its mark, then what was written for it (02, CR 14, and the
//! further marks of a whole driver); or the card program's input and output, a file each. A day of
//! ticks is millions of calls, so the bytes are kept as they were read, and of each call only its
//! place. Names and lent sections are no calls: they stand apart.

use crate::ruled::{aside, Rules, Step};
use crate::time::{ninths, TICK};
use model::make_recording::First;
use model::referee::marks::{first, Before};
use model::referee::{is_call, Card, Marks};
use std::collections::BTreeMap;

#[derive(Clone, Copy, Debug, PartialEq, Eq)]
pub enum Call<'r> {
    Open(u8),
    Close(u8),
    /// The connection and the message, header included.
    Message(u8, &'r [u8]),
    Tick(u32, u32),
    /// A section, a PTS, and the Seconds and MicroSeconds of its instant.
    Cue(&'r [u8], u64, (u32, u32)),
    /// A rolling card's instant and what its counter read then.
    Instant((u32, u32), u32),
    Reading(u32),
}

/// A name or a lent section: no call.
#[derive(Clone, Debug)]
pub struct Aside {
    /// The call before it.
    pub call: usize,
    /// Its place in the file, and in the bytes that it was taken out of.
    pub at: usize,
    here: usize,
    pub bytes: Vec<u8>,
    /// A record of that call stands behind it.
    pub between: bool,
}

/// A record or a refusal, with its mark, and its place in the file.
#[derive(Clone, Copy, Debug)]
pub struct Item<'r> {
    pub at: usize,
    pub bytes: &'r [u8],
}

impl AsRef<[u8]> for Item<'_> {
    fn as_ref(&self) -> &[u8] {
        self.bytes
    }
}

/// A call and what was written behind it. The first entry has no call: "Records before any call are
/// call 0's."
#[derive(Clone, Copy, Debug)]
pub struct Entry<'r> {
    pub at: usize,
    pub bytes: &'r [u8],
    /// All records of it, one behind the other.
    pub found: &'r [u8],
}

impl Aside {
    /// What was taken out of the file up to its end.
    fn shift(&self) -> usize {
        self.at - self.here + self.bytes.len()
    }
}

impl<'r> Entry<'r> {
    pub fn call(&self) -> Option<Call<'r>> {
        call(self.bytes)
    }
}

#[derive(Debug, Default)]
pub struct Recording {
    bytes: Vec<u8>,
    /// Where each call begins; the first is 0, that of no call.
    calls: Vec<u32>,
    /// Names and sections, in order.
    pub asides: Vec<Aside>,
    /// Of a rolling card: the clock behind each call, as recorded.
    clocks: Vec<u64>,
    /// Whether it has further marks, so that it tells of all that its driver did.
    pub further: bool,
    /// Of two files: the place of each record here and in its own, and the end of all.
    places: Option<Vec<(usize, usize)>>,
    /// What is to be said of the end: "A cut last record is dropped"; or a byte that is no mark.
    pub cut: Option<String>,
    /// Whether there is more that could not be read.
    pub unread: bool,
}

/// The records and refusals of what a call wrote, and their places, counted from this one.
pub fn items(written: &[u8], from: usize) -> Vec<Item<'_>> {
    let mut parts = Parts::of(written);
    let item = |(at, bytes)| Item {
        at: from + at,
        bytes,
    };
    parts.by_ref().map(item).collect()
}

/// The call of an entry's bytes.
pub fn call(part: &[u8]) -> Option<Call<'_>> {
    let word = |at: usize| u32::from_be_bytes([part[at], part[at + 1], part[at + 2], part[at + 3]]);
    Some(match part.first()? {
        0x4F => Call::Open(part[1]),
        0x43 => Call::Close(part[1]),
        0x4D => Call::Message(part[1], &part[2..]),
        0x54 => Call::Tick(word(2), word(6)),
        0x51 => {
            let end = part.len() - 16;
            let pts = u64::from(word(end)) << 32 | u64::from(word(end + 4));
            Call::Cue(&part[4..end], pts, (word(end + 8), word(end + 12)))
        }
        0x49 => Call::Instant((word(2), word(6)), word(10)),
        0x57 => Call::Reading(word(2)),
        _ => return None,
    })
}

/// The parts of a file, each with its place, up to what ends them.
struct Parts<'f> {
    bytes: &'f [u8],
    at: usize,
    before: Before,
}

impl<'f> Parts<'f> {
    /// Parts of a recording, from its first byte on.
    fn whole(bytes: &'f [u8]) -> Parts<'f> {
        Parts::by(bytes, Marks::Further)
    }

    /// In the card program's marks.
    fn of(bytes: &'f [u8]) -> Parts<'f> {
        Parts::by(bytes, Marks::Plain)
    }

    fn by(bytes: &'f [u8], marks: Marks) -> Parts<'f> {
        let before = Before {
            marks,
            entries: false,
            card: None,
        };
        Parts {
            bytes,
            at: 0,
            before,
        }
    }

    /// What is to be said of the end, if it is not that of a whole part; and whether more follows.
    fn ended(&self, file: &str) -> (Option<String>, bool) {
        let (at, there) = (self.at, self.bytes.len() - self.at);
        let Some(mark) = self.bytes.get(at) else {
            return (None, false);
        };
        match first(&self.bytes[at..], &self.before) {
            First::Cut { needs } => {
                let cut = format!("the last record is cut, {there} of {needs} bytes");
                (Some(format!("{file}: byte {at}: {cut}")), false)
            }
            _ => {
                let what = "is no mark of a call or a record";
                (
                    Some(format!("{file}: byte {at}: 0x{mark:02X} {what}")),
                    true,
                )
            }
        }
    }
}

impl<'f> Iterator for Parts<'f> {
    type Item = (usize, &'f [u8]);

    fn next(&mut self) -> Option<(usize, &'f [u8])> {
        let rest = self.bytes.get(self.at..).filter(|rest| !rest.is_empty())?;
        let First::Whole(length) = first(rest, &self.before) else {
            return None;
        };
        let at = self.at;
        self.at += length;
        self.before.entries = true;
        self.before.card = self.before.card.or(Card::of(rest[0]));
        Some((at, &rest[..length]))
    }
}

impl Recording {
    /// A recording.
    pub fn read(file: &str, bytes: Vec<u8>) -> Result<Recording, String> {
        if bytes.is_empty() {
            return Err(format!("{file}: empty: no call in it"));
        }
        fits(file, bytes.len())?;
        let mut parts = Parts::whole(&bytes);
        let mut made = Recording {
            calls: vec![0],
            ..Recording::default()
        };
        for (at, part) in parts.by_ref() {
            made.take(at, part);
        }
        (made.cut, made.unread) = parts.ended(file);
        let end = parts.at;
        if made.calls.len() == 1 {
            let records = "no call in it, records only: is it a card program's output?";
            let said = made.cut.take();
            return Err(said.unwrap_or_else(|| format!("{file}: {records}")));
        }
        made.bytes = bytes;
        made.bytes.truncate(end);
        made.apart();
        Ok(made)
    }

    /// The next entry of a file.
    fn take(&mut self, at: usize, part: &[u8]) {
        let taken = self.asides.last().map_or(0, Aside::shift);
        let call = self.calls.len() - 1;
        match part[0] {
            0x4C | 0x4E => self.asides.push(Aside {
                call,
                at,
                here: at - taken,
                bytes: part.to_vec(),
                between: false,
            }),
            mark if is_call(mark) => self.calls.push((at - taken) as u32),
            _ => {
                let own = self.asides.iter_mut().rev();
                own.take_while(|aside| aside.call == call && aside.bytes[0] == 0x4C)
                    .for_each(|aside| aside.between = true);
            }
        }
        self.further |= matches!(part[0], 0x4C | 0x4E | 0x51 | 0x49 | 0x57);
    }

    /// Takes names and sections out of the bytes, and follows a rolling card's clock.
    fn apart(&mut self) {
        if !self.asides.is_empty() {
            let all = std::mem::take(&mut self.bytes);
            let mut from = 0;
            for aside in &self.asides {
                self.bytes.extend_from_slice(&all[from..aside.at]);
                from = aside.at + aside.bytes.len();
            }
            self.bytes.extend_from_slice(&all[from..]);
        }
        let rolling = self.further
            && self
                .entries()
                .any(|e| matches!(e.bytes.first(), Some(0x49 | 0x57)));
        if rolling {
            self.clocks = self.followed();
        }
    }

    /// The clock behind each call: the good instant, and the good readings since.
    fn followed(&self) -> Vec<u64> {
        let (mut clock, mut last) = (0, 0u32);
        let behind = |entry: Entry| {
            match entry.call().filter(|_| entry.found.first() != Some(&0x45)) {
                Some(Call::Instant((s, m), reading)) => (clock, last) = (ninths(s, m), reading),
                Some(Call::Reading(reading)) => {
                    clock += u64::from(reading.wrapping_sub(last)) * TICK;
                    last = reading;
                }
                _ => {}
            }
            clock
        };
        self.entries().map(behind).collect()
    }

    /// The clock behind an instant or a reading.
    pub fn rolled(&self, number: usize) -> Option<u64> {
        self.clocks.get(number).copied()
    }

    /// The ChannelName that it has itself.
    pub fn name(&self) -> Option<[u8; 32]> {
        let first = self.asides.first().filter(|aside| aside.bytes[0] == 0x4E)?;
        first.bytes[2..].try_into().ok()
    }

    /// The names and sections behind a call, before the next.
    pub fn asides(&self, call: usize) -> &[Aside] {
        let from = self.asides.partition_point(|aside| aside.call < call);
        let to = self.asides.partition_point(|aside| aside.call <= call);
        &self.asides[from..to]
    }

    /// The card program's input and output, for a channel of this name. It stops behind a MessageSize
    /// above 4,088.
    pub fn of_card(
        input: (&str, &[u8]),
        output: (&str, &[u8]),
        name: &[u8; 32],
    ) -> Result<Recording, String> {
        if input.1.is_empty() {
            return Err(format!("{}: empty: no call in it", input.0));
        }
        let swapped = |file: &str, at: usize, what: &str| {
            format!("{file}: byte {at}: a {what} here: are the two files swapped, or is one a recording?")
        };
        let (mut calls, mut records) = (Parts::of(input.1), Parts::of(output.1));
        for (at, part) in calls.by_ref() {
            if !is_call(part[0]) {
                return Err(swapped(input.0, at, "record"));
            }
            if part.len() == 10 && part[0] == 0x4D && part[4..6] > [0x0F, 0xF8][..] {
                break;
            }
        }
        let mut found = Vec::new();
        for (at, part) in records.by_ref() {
            if is_call(part[0]) {
                return Err(swapped(output.0, at, "call"));
            }
            found.push(Item { at, bytes: part });
        }
        if let (0, (Some(why), true)) = (calls.at, calls.ended(input.0)) {
            return Err(why);
        }
        let mut joined = Recording::joined(&input.1[..calls.at], &found, name);
        (joined.cut, joined.unread) = records.ended(output.0);
        fits(input.0, joined.bytes.len())?;
        Ok(joined)
    }

    /// Gives the records of a card program's output to the calls, by what each call should have
    /// written.
    fn joined(calls: &[u8], found: &[Item], name: &[u8; 32]) -> Recording {
        let (mut rules, mut due) = (Rules::of(name), Vec::new());
        for (number, (_, call)) in Parts::of(calls).enumerate() {
            let written = rules.made(call);
            if !written.is_empty() {
                due.push((number, written));
            }
        }
        let of_call = placed(&due, found, Parts::of(calls).count());
        let all = calls.len() + found.iter().map(|item| item.bytes.len()).sum::<usize>();
        let mut made = Recording {
            bytes: Vec::with_capacity(all),
            calls: vec![0],
            ..Recording::default()
        };
        let (mut places, mut next) = (Vec::new(), 0);
        for (number, (_, call)) in Parts::of(calls).enumerate() {
            made.calls.push(made.bytes.len() as u32);
            made.bytes.extend_from_slice(call);
            while of_call.get(next) == Some(&number) {
                places.push((made.bytes.len(), found[next].at));
                made.bytes.extend_from_slice(found[next].bytes);
                next += 1;
            }
        }
        places.push((usize::MAX, made.bytes.len() - calls.len()));
        made.places = Some(places);
        made
    }

    /// How many calls, and one for those before any.
    pub fn count(&self) -> usize {
        self.calls.len()
    }

    /// A call by its number, from 1; 0 is no call.
    pub fn entry(&self, number: usize) -> Entry<'_> {
        let at = self.calls[number] as usize;
        let end = self.calls.get(number + 1).map(|end| *end as usize);
        let all = &self.bytes[at..end.unwrap_or(self.bytes.len())];
        let first = Parts::whole(all).next().filter(|_| number > 0);
        let length = first.map_or(0, |(_, part)| part.len());
        Entry {
            at,
            bytes: &all[..length],
            found: &all[length..],
        }
    }

    pub fn entries(&self) -> impl Iterator<Item = Entry<'_>> {
        (0..self.count()).map(|number| self.entry(number))
    }

    /// The records of a call.
    pub fn found(&self, number: usize) -> Vec<Item<'_>> {
        let entry = self.entry(number);
        items(entry.found, entry.at + entry.bytes.len())
    }

    /// The place of a call's mark; 0 for those before any.
    pub fn call_place(&self, number: usize) -> usize {
        match number {
            0 => 0,
            _ => self.place(self.calls[number] as usize),
        }
    }

    /// The place of a part in the file that it came from.
    pub fn place(&self, at: usize) -> usize {
        let Some(places) = &self.places else {
            let before = self.asides.partition_point(|aside| aside.here <= at);
            let last = self.asides[..before].last();
            return at + last.map_or(0, Aside::shift);
        };
        match places.binary_search_by_key(&at, |(here, _)| *here) {
            Ok(record) => places[record].1,
            // a call: the records before it are in the other file
            Err(next) => places.get(next).map_or(at, |(_, before)| at - before),
        }
    }

    /// The bytes of a recording.
    pub fn bytes(&self) -> &[u8] {
        &self.bytes
    }
}

/// Places are kept in four bytes each.
fn fits(file: &str, length: usize) -> Result<(), String> {
    match u32::try_from(length) {
        Ok(_) => Ok(()),
        Err(_) => Err(format!("{file}: {length} bytes: over 4 GiB is not read")),
    }
}

/// For each record found, the call that it goes to. One that was not due goes to a call that lacks a
/// record: between those before and behind it that are as due, or one of these two; else to the one
/// before.
fn placed(due: &[(usize, Vec<u8>)], found: &[Item], count: usize) -> Vec<usize> {
    let (mut calls, mut all) = (Vec::new(), Vec::new());
    for (call, bytes) in due {
        for item in items(bytes, 0) {
            calls.push(*call);
            all.push(item);
        }
    }
    let steps = aside(&all, found);
    let mut lacks: BTreeMap<usize, usize> = BTreeMap::new();
    for step in &steps {
        if let Step::Missing { due } = step {
            *lacks.entry(calls[*due]).or_default() += 1;
        }
    }
    let (mut last, mut list) = (0, Vec::new());
    for (place, step) in steps.iter().enumerate() {
        if step.found().is_none() {
            continue;
        }
        let behind = steps[place..].iter().find_map(Step::same);
        let behind = behind.map_or(count.saturating_sub(1), |due| calls[due]);
        match step.same() {
            Some(due) => last = calls[due],
            None => {
                let mut lacking = lacks.range_mut(last..=behind.max(last));
                if let Some((call, lack)) = lacking.find(|(_, lack)| **lack > 0) {
                    last = *call;
                    *lack -= 1;
                }
            }
        }
        list.push(last);
    }
    list
}
