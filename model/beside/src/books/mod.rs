//! What must hold of a splicer, by the calls and records alone: who waits and who has started is rebuilt from the records, and each
//! answer is compared with 01's sentences about it. It uses neither the second program nor the core's state.

mod answers;
mod bytes;
mod instants;
mod looks;
mod sessions;

use crate::calls::{Act, Call, Said, Sections};
use crate::cuebooks::{self, Due};
use bytes::*;
use model::people::cue_call::Given;
use splicer::{message_id as id, records, result, Record, CONNECTIONS, HEADER, OUT};

/// No answer is longer (docs/DEMANDS.md, `answers-fit`).
const LONGEST_ANSWER: usize = 3_174;

/// An accepted session whose end was not written yet.
#[derive(Clone)]
struct Held {
    conn: u8,
    id: u32,
    prior: u32,
    start: u64,
    end: u64,
    duration: u32,
    access: u8,
    overrides: bool,
    /// The value that its request asks of the multiplexer (02, CR 5).
    mux: u8,
    /// Its request's SpliceEventID (02, CR 8).
    event: u32,
    started: bool,
    /// Its time on air up to the clock, in ninths (02, CR 13).
    aired: u64,
}

#[derive(Clone, Default)]
pub struct Books {
    /// The splicer's ChannelName as the Init_Responses show it (02, CR 6).
    name: Option<Vec<u8>>,
    /// Each connection's Hardware_Config: that of its latest Init_Request with 100 since it was opened.
    hardware: [Vec<u8>; CONNECTIONS],
    /// The sections lent to the present call.
    lent: Sections,
    clock: u64,
    open: [bool; CONNECTIONS],
    initialised: [bool; CONNECTIONS],
    /// In the order in which they are read.
    held: Vec<Held>,
    /// The places that the present call's acceptance shifts (02, CR 11).
    moved: usize,
    /// Time on the primary channel and of all sessions, in ninths (02, CR 13).
    primary: u64,
    aired: u64,
    /// The ends written lately, the newest first (02, CR 8).
    ended: Vec<Ended>,
}

impl Books {
    /// Enters a call and its answer.
    pub fn call(&mut self, act: &Act, said: &Said) -> Kept {
        self.lent = act.sections.clone();
        self.entered(self.refusal(act), said, |books, list| match &act.call {
            Call::Open(conn) => books.opened(*conn as u8, list),
            Call::Close(conn) => books.closed(*conn as u8, list),
            Call::Message(conn, bytes) => {
                let size = usize::from(half(bytes, 2));
                must(said.consumed == HEADER + size, "not one message consumed")?;
                books.answered(*conn as u8, &bytes[..said.consumed], list)
            }
            Call::Tick(seconds, micros) => books.ticked(ninths(*seconds, *micros), list),
            Call::Cue(given) => books.cued(given, list),
            Call::Fresh => must(false, "fresh makes a splicer"),
        })
    }

    /// Enters a call that brings the clock to a time in ninths, with the house number or 0 that it has.
    pub fn brought(&mut self, number: u8, until: u64, said: &Said) -> Kept {
        self.entered(number, said, |books, list| books.ticked(until, list))
    }

    pub fn clock(&self) -> u64 {
        self.clock
    }

    fn entered(&mut self, number: u8, said: &Said, answered: impl FnOnce(&mut Books, &[Record]) -> Kept) -> Kept {
        must(said.refused == number, "another house number")?;
        if said.refused != 0 {
            return must(said.consumed == 0 && said.written.is_empty() && said.moved == 0, "refused and wrote or moved");
        }
        self.moved = 0;
        must(said.written.len() <= LONGEST_ANSWER, "a long answer")?;
        let mut walk = records(&said.written);
        let list: Vec<Record> = walk.by_ref().collect();
        must(walk.rest().is_empty(), "bytes that are no record")?;
        for record in &list {
            well_formed(record)?;
        }
        answered(self, &list)?;
        must(said.moved == self.moved, "another number of places moved")?;
        if list.is_empty() {
            return Ok(());
        }
        self.order();
        self.holds()
    }

    /// The first house number that applies, in 01's order, or 0.
    fn refusal(&self, act: &Act) -> u8 {
        let above = |conn: u32| conn as usize >= CONNECTIONS;
        let short = act.room < OUT;
        match &act.call {
            Call::Open(conn) | Call::Close(conn) | Call::Message(conn, _) if above(*conn) => 1,
            Call::Open(conn) if self.open[*conn as usize] => 6,
            Call::Open(_) => 0,
            _ if short => 2,
            Call::Close(conn) | Call::Message(conn, _) if !self.open[*conn as usize] => 7,
            Call::Close(_) => 0,
            // 02, CR 6: "house number 10 for a lent section over 1,024 bytes, in the message call after 7"
            Call::Message(..) if act.sections.longest() > 1_024 => 10,
            Call::Message(_, bytes) if bytes.len() < HEADER => 5,
            Call::Message(_, bytes) if half(bytes, 2) > 4_088 => 4,
            Call::Message(_, bytes) if bytes.len() < HEADER + usize::from(half(bytes, 2)) => 5,
            Call::Message(..) => 0,
            Call::Tick(_, micros) if *micros > 999_999 => 8,
            Call::Tick(seconds, micros) if ninths(*seconds, *micros) < self.clock => 3,
            Call::Tick(..) => 0,
            Call::Fresh => 0,
            Call::Cue(given) if given.micros > 999_999 => 8,
            Call::Cue(given) => [11, 0][usize::from(cuebooks::fits(&given.section))],
        }
    }

    /// 02, CR 7: "to every initialised connection, from 0 upward": 117, or the cue with its time and the whole section.
    fn cued(&self, given: &Given, list: &[Record]) -> Kept {
        let due = cuebooks::due(&given.section);
        let ready = |conn: &usize| self.open[*conn] && self.initialised[*conn];
        let told: Vec<usize> = list.iter().map(|r| usize::from(r.connection)).collect();
        if due == Due::Nothing {
            return must(list.is_empty(), "a cue told that is to be passed over");
        }
        let all: Vec<usize> = (0..CONNECTIONS).filter(ready).collect();
        must(told == all, "not each initialised connection, from 0 upward")?;
        for record in list {
            let code = (record.message_id, record.result);
            if due == Due::Bad {
                must(code == (id::GENERAL_RESPONSE, 117), "no 117")?;
                continue;
            }
            must(code == (CUE, 0xFFFF), "no Cue_Request")?;
            must(record.data[8..] == given.section, "another section")?;
            let time = (word(record.data, 0), word(record.data, 4));
            must(cuebooks::timely(due, given, time), "another time of a cue")?;
        }
        Ok(())
    }

    /// "Opening leaves the connection not initialised."
    fn opened(&mut self, conn: u8, list: &[Record]) -> Kept {
        self.open[usize::from(conn)] = true;
        self.initialised[usize::from(conn)] = false;
        must(list.is_empty(), "open wrote")
    }

    /// "Close ends, as by abort, the connection's started sessions [..], then all its waiting".
    fn closed(&mut self, conn: u8, list: &[Record]) -> Kept {
        for record in list {
            must(record.connection == conn, "close ended another's session")?;
            must(record.result == result::ABORTED, "close without 116")?;
            self.played(record)?;
            self.session(record)?;
        }
        self.open[usize::from(conn)] = false;
        must(self.held.iter().all(|s| s.conn != conn), "held after close")
    }
}
