//! A day's schedule: up to ten spots wait at a time, in the order of the script.

use super::client::Client;
use super::one::{initialised, present, request};
use super::options::{Asked, Options};
use super::{show, GOOD, OTHER};
use crate::{time, wire};
use splicer::Says;
use std::collections::{BTreeMap, VecDeque};
use std::path::Path;

/// Places that are this connection's own (01, check e).
const OWN: usize = 10;

/// A line of the script: its start, or none for one that is linked to the one above it.
struct Spot {
    start: Option<u64>,
    asked: Asked,
}

fn line(text: &str, now: u64) -> Option<Spot> {
    let mut words = text.split_whitespace();
    let (start, duration) = (words.next()?, words.next()?);
    let start = match start.strip_prefix('+') {
        Some(span) => now.checked_add(time::span(span)?)?,
        None => time::read(start)?,
    };
    let duration = time::span(duration)?;
    let (ahead, session, prior) = (0, None, None);
    let mut asked = Asked { ahead, duration, session, access: 5, over: false, prior, event: u32::MAX, mux: None };
    let mut linked = false;
    for word in words {
        match word.split_once('=') {
            Some(("access", n)) => asked.access = n.parse().ok()?,
            Some(("event", n)) => asked.event = n.parse().ok()?,
            Some(("mux", n)) => asked.mux = Some(n.parse().ok()?),
            None if word == "override" => asked.over = true,
            None if word == "linked" => linked = true,
            _ => return None,
        }
    }
    Some(Spot { start: (!linked).then_some(start), asked })
}

fn spots(text: &str, now: u64) -> Result<VecDeque<Spot>, String> {
    let lines = text.lines().enumerate().filter(|(_, l)| !l.trim().is_empty() && !l.starts_with('#'));
    lines.map(|(n, l)| line(l, now).ok_or(format!("line {}: no spot: {l}", n + 1))).collect()
}

/// What became of the spots: those that wait or are on air, and how many ended how.
#[derive(Default)]
struct Book {
    waiting: usize,
    held: BTreeMap<u32, bool>,
    good: usize,
    other: usize,
}

pub fn run(options: &Options, script: &Path) -> Result<u8, String> {
    let text = std::fs::read_to_string(script).map_err(|error| format!("{}: {error}", script.display()))?;
    let mut client = match initialised(options)? {
        Ok(client) => client,
        Err(status) => return Ok(status),
    };
    let now = present(&mut client)?;
    let mut spots = spots(&text, now).map_err(|why| format!("{}: {why}", script.display()))?;
    let (mut book, mut session) = (Book::default(), 0);
    while !spots.is_empty() || !book.held.is_empty() {
        while let Some(spot) = (book.waiting < OWN).then(|| spots.pop_front()).flatten() {
            ask(&mut client, &mut book, spot, &mut session)?;
        }
        let came = client.next(None)?.ok_or("no answer")?;
        show(options, &came.record());
        book.hear(came.record().says(), came.record().result);
    }
    println!("{} spots ended with 100, {} otherwise", book.good, book.other);
    Ok(if book.other == 0 { GOOD } else { OTHER })
}

fn ask(client: &mut Client, book: &mut Book, mut spot: Spot, session: &mut u32) -> Result<(), String> {
    if spot.start.is_none() {
        spot.asked.prior = Some(*session);
    }
    *session += 1;
    book.waiting += 1;
    book.held.insert(*session, false);
    client.send(&wire::splice(&request(&spot.asked, *session, spot.start.unwrap_or_default())))
}

impl Book {
    fn hear(&mut self, says: Option<Says<'_>>, result: u16) {
        match says {
            Some(Says::Splice { session }) if result != 100 => self.ended(session, false),
            Some(Says::Complete { session, flag: 0, .. }) if result != 100 => self.ended(session, false),
            Some(Says::Complete { session, flag: 0, .. }) => {
                if let Some(started) = self.held.get_mut(&session) {
                    *started = true;
                    self.waiting -= 1;
                }
            }
            Some(Says::Complete { session, .. }) => self.ended(session, result == 100),
            _ => {}
        }
    }

    fn ended(&mut self, session: u32, good: bool) {
        if let Some(started) = self.held.remove(&session) {
            self.waiting -= usize::from(!started);
            self.good += usize::from(good);
            self.other += usize::from(!good);
        }
    }
}

#[cfg(test)]
mod tests {
    use super::*;

    #[test]
    fn scripts() {
        let read = spots("# a break\n+5s 30s access=3 event=7\n+0s 15s linked override\n", 1_000_000).unwrap();
        assert_eq!((read[0].start, read[0].asked.duration, read[0].asked.event), (Some(6_000_000), 30_000_000, 7));
        assert!(read[1].start.is_none() && read[1].asked.over);
        assert_eq!(spots("+5s", 0).err().unwrap(), "line 1: no spot: +5s");
    }

    #[test]
    fn a_book_of_two() {
        let mut book = Book { waiting: 2, held: BTreeMap::from([(1, false), (2, false)]), ..Book::default() };
        book.hear(Some(Says::Complete { session: 1, flag: 0, bitrate: 0, played: 0 }), 100);
        assert_eq!(book.waiting, 1);
        book.hear(Some(Says::Complete { session: 1, flag: 1, bitrate: 0, played: 9 }), 100);
        book.hear(Some(Says::Splice { session: 2 }), 109);
        assert_eq!((book.waiting, book.good, book.other), (0, 1, 1));
    }
}
