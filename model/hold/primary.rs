//! 02, CR 13: every moment belongs to someone. The splicer's own sum of the time on the primary channel, and the same from the
//! calls and records alone, by intervals: "Primary time is counted from the history, as the time in which no session was started
//! and unended; a session's, as the time in which it had the highest AccessType of those started and unended."

use crate::people::card::{Call, Done};
use crate::people::record_lines::{self, Item, Record, What};
use crate::reading::{splice, SpliceFields};
use crate::rules::{ninths, NONE, TICK};

/// An accepted session, by its request and the records.
#[derive(Clone, Debug)]
pub struct Airing {
    pub conn: u8,
    pub id: u32,
    pub access: u8,
    pub start: u64,
    pub end: u64,
    pub begun: bool,
    /// Its end was written: when it was over. It means nothing of one that never began.
    pub over: Option<u64>,
    /// PlayedDuration of its SpliceComplete with flag 1.
    pub played: Option<u32>,
}

impl Airing {
    /// From when to when it was started and unended, up to this clock.
    fn interval(&self, clock: u64) -> Option<(u64, u64)> {
        let to = self.over.unwrap_or(clock).min(clock);
        (self.begun && self.start < to).then_some((self.start, to))
    }
}

/// What the calls and their answers tell.
#[derive(Clone, Debug, Default)]
pub struct History {
    pub clock: u64,
    pub airings: Vec<Airing>,
}

/// Primary time and each session's, in ninths.
#[derive(Debug, PartialEq, Eq)]
pub struct Times {
    pub primary: u64,
    pub sessions: Vec<u64>,
}

impl History {
    pub fn of(calls: &[Done]) -> History {
        let mut history = History::default();
        for done in calls {
            history.call(&done.call, &done.output);
        }
        history
    }

    pub fn call(&mut self, call: &Call, output: &[u8]) {
        let mut items = record_lines::items(output);
        if matches!(items.first(), Some(Item::Refused(_))) {
            return;
        }
        match call {
            Call::Tick(seconds, micros) => self.clock = ninths(*seconds, *micros),
            Call::Message(conn, bytes) => {
                // A Splice_Request's own answer is the last record of its call, and no end.
                if let (Some(fields), Some(Item::Record(record))) = (splice(bytes), items.last()) {
                    if let What::Splice { result, .. } = record.what {
                        items.pop();
                        self.records(&items);
                        if result == 100 {
                            self.accepted(*conn, &fields);
                        }
                        return;
                    }
                }
            }
            _ => {}
        }
        self.records(&items);
    }

    /// A rolling card's instant or reading has brought the clock here (02, CR 9).
    pub fn brought(&mut self, clock: u64, output: &[u8]) {
        self.clock = clock;
        self.records(&record_lines::items(output));
    }

    fn accepted(&mut self, conn: u8, fields: &SpliceFields) {
        let start = match fields.prior {
            NONE => ninths(fields.seconds, fields.micros),
            prior => self.last(conn, prior).map_or(0, |a| a.end),
        };
        self.airings.push(Airing {
            conn,
            id: fields.id,
            access: fields.access,
            start,
            end: start + u64::from(fields.duration) * TICK,
            begun: false,
            over: None,
            played: None,
        });
    }

    /// "the session that its connection last accepted under that SessionID"
    fn last(&mut self, conn: u8, id: u32) -> Option<&mut Airing> {
        let own = |a: &&mut Airing| a.conn == conn && a.id == id;
        self.airings.iter_mut().rev().find(own)
    }

    fn records(&mut self, items: &[Item]) {
        for (at, item) in items.iter().enumerate() {
            if let Item::Record(record) = item {
                let behind = self.next_start(&items[at + 1..]);
                self.record(record, behind);
            }
        }
    }

    /// The start time of the first SpliceComplete with flag 0 among these.
    fn next_start(&mut self, items: &[Item]) -> Option<u64> {
        let (conn, id) = items.iter().find_map(|item| match item {
            Item::Record(Record { conn, what: What::Complete { id, flag: 0, .. } }) => Some((*conn, *id)),
            _ => None,
        })?;
        self.last(conn, id).map(|a| a.start)
    }

    /// A start, or an end: it is over at the least of its end time, the clock after the call, and the
    /// start behind it in the same answer, which is the one that ends an equal at once (02, CR 4).
    fn record(&mut self, record: &Record, behind: Option<u64>) {
        let clock = self.clock;
        let (id, starts, said) = match record.what {
            What::Complete { id, flag: 0, result, .. } => (id, result == 100, None),
            What::Complete { id, played, .. } => (id, false, Some(played)),
            What::Splice { id, .. } => (id, false, None),
            _ => return,
        };
        let Some(airing) = self.last(record.conn, id) else {
            return;
        };
        if starts {
            airing.begun = true;
            return;
        }
        let over = airing.end.min(clock).min(behind.unwrap_or(clock));
        airing.over = Some(over);
        airing.played = said;
    }

    /// The day up to the clock, cut at every start and end: each piece is the highest session's of
    /// those that are started and unended, or the primary channel's.
    pub fn times(&self) -> Times {
        let mut cuts = vec![0, self.clock];
        for (from, to) in self.airings.iter().filter_map(|a| a.interval(self.clock)) {
            cuts.extend([from, to]);
        }
        cuts.sort();
        cuts.dedup();
        let mut times = Times { primary: 0, sessions: vec![0; self.airings.len()] };
        // The intervals in order of their beginnings; those that have begun and are not over.
        let all = self.airings.iter().enumerate();
        let mut later: Vec<(u64, u64, usize)> =
            all.filter_map(|(at, a)| a.interval(self.clock).map(|(from, to)| (from, to, at))).collect();
        later.sort();
        later.reverse();
        let mut live: Vec<(u64, usize)> = Vec::new();
        for piece in cuts.windows(2) {
            while let Some((_, to, at)) = later.pop_if(|(from, ..)| *from <= piece[0]) {
                live.push((to, at));
            }
            live.retain(|(to, _)| *to > piece[0]);
            let highest = live.iter().max_by_key(|(_, at)| self.airings[*at].access);
            match highest {
                Some((_, at)) => times.sessions[*at] += piece[1] - piece[0],
                None => times.primary += piece[1] - piece[0],
            }
        }
        times
    }

    /// What does not add up, with the splicer's own primary sum.
    pub fn wrong(&self, primary: u64) -> Vec<String> {
        let times = self.times();
        let mut list = Vec::new();
        if times.primary != primary {
            let counted = times.primary;
            list.push(format!("primary {primary}, by the records {counted}"));
        }
        let all = times.primary + times.sessions.iter().sum::<u64>();
        if all != self.clock {
            list.push(format!("together {all}, the clock {}", self.clock));
        }
        for (airing, time) in self.airings.iter().zip(&times.sessions) {
            if airing.played.is_some_and(|p| u64::from(p) != time / TICK) {
                list.push(format!("{airing:?}: {time} ninths on air"));
            }
        }
        list
    }
}
