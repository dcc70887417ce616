//! The as-run list and the timeline of a recording. The records are those of the recorded output; the times come from the recorded
//! requests and ticks by 01's sentences "A timed start is the request's time; a linked start is the prior session's end. End is
//! start plus Duration."

use crate::people::card::{self, Call, Done};
use crate::people::decode::{agreement, differing, time_text};
use crate::people::looks::Reads;
use crate::people::record_lines::{self, named, number, Item, Record, What};
use crate::people::rolling::{self, Rolling};
use crate::reading::{splice, SpliceFields};
use crate::rules::{ninths, NONE, TICK};

/// One accepted session of the day.
#[derive(Debug)]
struct Row {
    conn: u8,
    id: u32,
    event: u32,
    access: u8,
    start: u64,
    end: u64,
    began: Option<u64>,
    ended: Option<u64>,
    result: u16,
    played: Option<u32>,
}

/// A time on air of the session in this row of the list.
#[derive(Debug, PartialEq, Eq)]
struct Span {
    from: u64,
    to: u64,
    row: usize,
}

#[derive(Default)]
struct Day {
    clock: u64,
    rows: Vec<Row>,
    spans: Vec<Span>,
    /// The row on air, and since when.
    on_air: Option<(usize, u64)>,
}

/// The text, and true if the output is the second program's own.
pub fn as_run(input: &[u8], output: &[u8]) -> (String, bool) {
    let run = card::run(input);
    let (agreed, at, same) = agreement(&run, output);
    let day = Day::of(&run.calls[..agreed]);
    let mut text = day.list();
    text += &day.timeline();
    if !same {
        text += "The recording below is not taken into the lists above.\n";
        text += &differing(&run, agreed, &output[at..]);
    }
    (text, same)
}

/// The same of a rolling card's calls (02, CR 9), played by the second program.
pub fn as_rolled(calls: &[rolling::Call]) -> String {
    let (mut card, _) = Rolling::fresh(&card::channel_name());
    let mut day = Day::default();
    for call in calls {
        let output = card.shown(call);
        match call {
            rolling::Call::Plain(call) => day.call(&Done { call: call.clone(), to: 0, output, read: Reads::of(&card.splicer) }),
            _ => {
                day.clock = card.splicer.clock;
                day.records(&record_lines::items(&output));
            }
        }
    }
    day.air(None, day.clock);
    day.list() + &day.timeline()
}

impl Day {
    fn of(calls: &[Done]) -> Day {
        let mut day = Day::default();
        for done in calls {
            day.call(done);
        }
        day.air(None, day.clock);
        day
    }

    fn call(&mut self, done: &Done) {
        let mut items = record_lines::items(&done.output);
        let refused = matches!(items.first(), Some(Item::Refused(_)));
        match &done.call {
            Call::Tick(seconds, micros) if !refused => self.clock = ninths(*seconds, *micros),
            Call::Message(conn, bytes) if !refused => {
                // A Splice_Request's own answer is the last record of its call.
                if let (Some(fields), Some(Item::Record(record))) = (splice(bytes), items.last()) {
                    if let What::Splice { result, .. } = record.what {
                        items.pop();
                        self.records(&items);
                        return self.answered(*conn, &fields, result);
                    }
                }
            }
            _ => {}
        }
        self.records(&items);
    }

    fn records(&mut self, items: &[Item]) {
        for (index, item) in items.iter().enumerate() {
            if let Item::Record(record) = item {
                let behind = self.next_start(&items[index + 1..]);
                self.record(record, behind);
            }
        }
    }

    /// The instant of the first start among these records.
    fn next_start(&mut self, items: &[Item]) -> Option<u64> {
        let started = |item: &Item| match item {
            Item::Record(Record { conn, what: What::Complete { id, flag: 0, result: 100, .. } }) => Some((*conn, *id)),
            _ => None,
        };
        let (conn, id) = items.iter().find_map(started)?;
        self.last(conn, id).map(|row| row.start)
    }

    fn answered(&mut self, conn: u8, fields: &SpliceFields, result: u16) {
        if result != 100 {
            return;
        }
        let start = match fields.prior {
            NONE => ninths(fields.seconds, fields.micros),
            prior => self.last(conn, prior).map_or(0, |row| row.end),
        };
        self.rows.push(Row {
            conn,
            id: fields.id,
            event: fields.event,
            access: fields.access,
            start,
            end: start + u64::from(fields.duration) * TICK,
            began: None,
            ended: None,
            result: 0,
            played: None,
        });
    }

    /// "the session that its connection last accepted under that SessionID"
    fn last(&mut self, conn: u8, id: u32) -> Option<&mut Row> {
        let own = |row: &&mut Row| row.conn == conn && row.id == id;
        self.rows.iter_mut().rev().find(own)
    }

    /// `behind` is the instant of the next start of the same call. 02, CR 4: one that a start
    /// ends has its end before that start's record, and not at its end time.
    fn record(&mut self, record: &Record, behind: Option<u64>) {
        let clock = self.clock;
        let (id, result, flag, played) = match record.what {
            What::Complete { id, result, flag, played, .. } => (id, result, Some(flag), Some(played)),
            What::Splice { id, result } => (id, result, None, None),
            _ => return,
        };
        let Some(row) = self.last(record.conn, id) else {
            return;
        };
        let time = match (flag, result) {
            (Some(0), _) => row.start,
            (Some(_), 100) => row.end,
            (Some(_), 125) => behind.map_or(row.end, |start| start.min(row.end)),
            (None, 125) => behind.unwrap_or(clock),
            _ => clock,
        };
        if (flag, result) == (Some(0), 100) {
            row.began = Some(time);
        } else {
            row.ended = Some(time);
            row.result = result;
            row.played = played.filter(|_| flag == Some(1));
        }
        self.switch(time);
    }

    /// After a start or an end: the highest started session is the one on air.
    fn switch(&mut self, time: u64) {
        let started = |(_, row): &(usize, &Row)| row.began.is_some() && row.ended.is_none();
        let rows = self.rows.iter().enumerate();
        let highest = rows.filter(started).max_by_key(|(_, row)| row.access);
        let now = highest.map(|(index, _)| index);
        if self.on_air.map(|(row, _)| row) != now {
            self.air(now, time);
        }
    }

    fn air(&mut self, now: Option<usize>, time: u64) {
        if let Some((row, from)) = self.on_air {
            match self.spans.last_mut() {
                Some(last) if last.row == row && last.to == from => last.to = time,
                _ if from == time => {}
                _ => self.spans.push(Span { from, to: time, row }),
            }
        }
        self.on_air = now.map(|row| (row, time));
    }

    fn list(&self) -> String {
        let head = "connection   SessionID                start                  end      played";
        let mut run = format!("As-run list\n{head}  result\n");
        let mut other = "\nAccepted and not run\nconnection   SessionID                start".to_string();
        other += "                ended  result\n";
        for row in &self.rows {
            let ended = row.ended.map_or("-".to_string(), time_text);
            let place = format!("{:>10}  {:>10}", row.conn, number(row.id));
            let result = match (row.ended, row.began) {
                (Some(_), _) => named(row.result),
                (None, Some(_)) => "still on air or covered".to_string(),
                (None, None) => "still waiting".to_string(),
            };
            // "to relate this insertion event back" to its cue; all ones is none
            let result = match row.event {
                NONE => result,
                event => format!("{result}, SpliceEventID {event}"),
            };
            let played = row.played.map_or("-".to_string(), |p| p.to_string());
            match row.began {
                Some(at) => {
                    let start = time_text(at);
                    run += &format!("{place} {start:>20} {ended:>20} {played:>11}  {result}\n");
                }
                None => {
                    let start = time_text(row.start);
                    other += &format!("{place} {start:>20} {ended:>20}  {result}\n");
                }
            }
        }
        run + &other
    }

    fn timeline(&self) -> String {
        let mut text = "\nOn air\n                from                   to  session\n".to_string();
        let mut last = 0;
        let line = |from: u64, to: u64, who: &str| format!("{:>20} {:>20}  {who}\n", time_text(from), time_text(to));
        for span in &self.spans {
            if span.from > last {
                text += &line(last, span.from, "primary channel");
            }
            let row = &self.rows[span.row];
            let who = format!("connection {} session {}", row.conn, number(row.id));
            text += &line(span.from, span.to, &who);
            last = span.to;
        }
        if self.clock > last {
            text += &line(last, self.clock, "primary channel");
        }
        text + &self.sums()
    }

    /// 02, CR 13: the day has no gap. The primary channel's time is counted from the times in which
    /// sessions were started and unended, the sessions' from the spans on air.
    fn sums(&self) -> String {
        let mut started: Vec<(u64, u64)> =
            self.rows.iter().filter_map(|row| Some((row.began?, row.ended.unwrap_or(self.clock)))).collect();
        started.sort();
        let (mut primary, mut last) = (0, 0);
        for (from, to) in started {
            primary += from.saturating_sub(last);
            last = last.max(to);
        }
        primary += self.clock.saturating_sub(last);
        let on_air: u64 = self.spans.iter().map(|span| span.to - span.from).sum();
        let together = primary + on_air;
        let line = |name: &str, time: u64| {
            let text = time_text(time);
            format!("{name:<16}{text:>20} s {time:>20} ninths\n")
        };
        let mut text = "\nTime\n".to_string();
        text += &line("primary channel", primary);
        text += &line("sessions on air", on_air);
        text += &line("together", together);
        text += &line("clock", self.clock);
        if together != self.clock {
            text += &format!("THEY DIFFER by {} ninths\n", together.abs_diff(self.clock));
        }
        text
    }
}

#[cfg(test)]
mod tests;
