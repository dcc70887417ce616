//! The customer's demand 3, held to the answers alone: what a connection has waiting is what
//! was accepted since it was opened, less those whose start or end was written.

use crate::people::card::{Call, Done};
use crate::people::record_lines::{self, Item, Record, What};
use crate::reading::{self, Request, SpliceFields};
use crate::rules::{ninths, NONE, TICK};

struct Accepted {
    conn: u8,
    id: u32,
    end: u64,
    waiting: bool,
    ends: u32,
}

#[derive(Default)]
struct Books {
    clock: u64,
    list: Vec<Accepted>,
    faults: Vec<String>,
}

/// What breaks demand 3 in these calls and their outputs.
pub fn broken(calls: &[Done]) -> Vec<String> {
    let mut books = Books::default();
    for (index, done) in calls.iter().enumerate() {
        let before = books.faults.len();
        books.call(done);
        for fault in &mut books.faults[before..] {
            *fault = format!("call {}: {fault}", index + 1);
        }
    }
    books.faults
}

impl Books {
    fn call(&mut self, done: &Done) {
        // 01: "Counted before f", so before the evictions whose records precede the 100.
        let counts = self.counts();
        let items = record_lines::items(&done.output);
        let refused = matches!(items.first(), Some(Item::Refused(_)));
        let own = if refused { None } else { request(&done.call) };
        let last = items.len();
        for (index, item) in items.iter().enumerate() {
            let Item::Record(record) = item else {
                continue;
            };
            match (&own, &record.what) {
                (Some((conn, fields)), What::Splice { result, .. }) if index + 1 == last => {
                    self.answered(*conn, fields, *result, counts);
                }
                _ => self.record(record),
            }
        }
        match &done.call {
            Call::Tick(seconds, micros) if !refused => self.clock = ninths(*seconds, *micros),
            Call::Close(conn) if !refused => self.all_ended(|a| a.conn == *conn, "closed"),
            _ => {}
        }
        let clock = self.clock;
        self.all_ended(|a| a.end <= clock, "clock at its end");
    }

    fn counts(&self) -> [usize; 4] {
        let mut counts = [0; 4];
        for session in self.list.iter().filter(|a| a.waiting) {
            counts[session.conn as usize] += 1;
        }
        counts
    }

    /// "refused for a full queue exactly when the count is 20, or when it is at least 10 and
    /// the four counts, each taken as at least 10, add up to 64"
    fn answered(&mut self, conn: u8, fields: &SpliceFields, result: u16, counts: [usize; 4]) {
        let own = counts[conn as usize];
        let sum: usize = counts.iter().map(|n| *n.max(&10)).sum();
        let full = own == 20 || (own >= 10 && sum == 64);
        if (result == 114 && !full) || (result == 100 && full) {
            self.faults.push(format!("{result} with counts {counts:?}"));
        }
        if result != 100 {
            return;
        }
        let start = match fields.prior {
            NONE => ninths(fields.seconds, fields.micros),
            prior => self.last(conn, prior).map_or(0, |a| a.end),
        };
        self.list.push(Accepted { conn, id: fields.id, end: start + u64::from(fields.duration) * TICK, waiting: true, ends: 0 });
        if self.counts()[conn as usize] > 20 {
            self.faults.push("more than 20 waiting".to_string());
        }
    }

    fn last(&mut self, conn: u8, id: u32) -> Option<&mut Accepted> {
        let own = |a: &&mut Accepted| a.conn == conn && a.id == id;
        self.list.iter_mut().rev().find(own)
    }

    /// 01: "A session's end is its SpliceComplete with flag 1, or its SpliceComplete with flag
    /// 0 and 109, or a Splice_Response 109 [...] or 116 that isn't a Splice_Request's own
    /// answer." 02, CR 4: "Demand 3's one end now includes these records", so 125 too.
    fn record(&mut self, record: &Record) {
        let (id, ends) = match record.what {
            What::Complete { id, flag, result, .. } => (id, flag == 1 || result == 109),
            What::Splice { id, result } => (id, [109, 116, 125].contains(&result)),
            _ => return,
        };
        let Some(session) = self.last(record.conn, id) else {
            return self.faults.push(format!("record for unknown session {id}"));
        };
        session.waiting = false;
        session.ends += ends as u32;
        if session.ends > 1 {
            self.faults.push(format!("second end of session {id}"));
        }
    }

    /// Sessions that must have ended by now.
    fn all_ended(&mut self, due: impl Fn(&Accepted) -> bool, why: &str) {
        for session in &self.list {
            if due(session) && session.ends == 0 {
                let text = format!("no end of session {} ({why})", session.id);
                self.faults.push(text);
            }
        }
    }
}

/// The connection and fields of a Splice_Request that was read.
fn request(call: &Call) -> Option<(u8, SpliceFields)> {
    let Call::Message(conn, bytes) = call else {
        return None;
    };
    if bytes[..2] != [0x00, 0x07] {
        return None;
    }
    match reading::read(0x0007, &bytes[8..]) {
        Ok(Request::Splice(fields)) => Some((*conn, fields)),
        _ => None,
    }
}

#[cfg(test)]
mod tests {
    use super::*;
    use crate::gen;
    use crate::hold::faults::Fault;
    use crate::hold::run;
    use crate::people::card;

    #[test]
    fn the_clean_program_keeps_demand_3() {
        for index in 0..26 {
            let run = card::run(&gen::stream(3, index));
            assert_eq!(broken(&run.calls), Vec::<String>::new(), "stream {index}");
        }
    }

    #[test]
    fn faulty_programs_break_it() {
        let faults = [
            Fault::CountedAfterEviction,
            Fault::OnePool,
            Fault::TwentyOneWaiting,
            Fault::InstantLeftOver,
            Fault::ElevenReserved,
            Fault::CoveredEndMoves,
            Fault::EqualResumed,
        ];
        for fault in faults {
            let breaks = |index| {
                let run = run::by(&gen::stream(3, index), Some(fault));
                !broken(&run.calls).is_empty()
            };
            assert!((0..26).any(breaks), "{fault:?}");
        }
    }
}
