//! What a tick does, and who was on air meanwhile (02, CR 13).

use super::bytes::*;
use super::{Books, Held};
use crate::intervals::{share, Live};
use splicer::{message_id as id, result, Record};

impl Books {
    /// "A tick works through every start and end not later than its time".
    pub(super) fn ticked(&mut self, time: u64, list: &[Record]) -> Kept {
        let mut lives = self.started();
        for (place, record) in list.iter().enumerate() {
            must(record.result != result::ABORTED, "a tick aborted")?;
            if record.result == result::OVERRIDDEN {
                self.overridden(&list[..place], record, &list[place + 1..])?;
            }
            self.noted(&mut lives, record, &list[place + 1..], time);
            self.session(record)?;
        }
        self.shared(time, &mut lives)?;
        self.clock = time;
        let due = |s: &Held| if s.started { s.end } else { s.start };
        must(self.held.iter().all(|s| due(s) > time), "due and not done")
    }

    /// The started sessions, from the clock on.
    pub(super) fn started(&self) -> Vec<Live> {
        let started = self.held.iter().filter(|s| s.started);
        let live =
            |s: &Held| Live { conn: s.conn, id: s.id, access: s.access, from: self.clock, to: None, aired: s.aired, said: None };
        started.map(live).collect()
    }

    /// A start or end in the answer of a tick. A session is over at its end time, or at the start behind
    /// its end in the same answer, if that is earlier: of an equal one (02, CR 4).
    pub(super) fn noted(&self, lives: &mut Vec<Live>, record: &Record, behind: &[Record], time: u64) {
        let Some(s) = self.of(record) else {
            return;
        };
        let own = |live: &&mut Live| live.conn == s.conn && live.id == s.id;
        if is_kind(record, COMPLETE, 100) && record.data[4] == 0 {
            lives.push(Live { conn: s.conn, id: s.id, access: s.access, from: s.start, to: None, aired: 0, said: None });
        } else if let Some(live) = lives.iter_mut().find(own) {
            let first = behind.iter().find(|r| r.message_id == COMPLETE && r.data[4] == 0);
            let start = first.and_then(|r| self.of(r)).map_or(time, |new| new.start);
            live.to = Some(s.end.min(time).min(start));
            live.said = (record.message_id == COMPLETE).then(|| word(record.data, 9));
        }
    }

    /// 02, CR 13: the time from the clock to this one is shared out, and each end's PlayedDuration is its
    /// session's time on air in ticks, rounded down.
    pub(super) fn shared(&mut self, time: u64, lives: &mut [Live]) -> Kept {
        let before: u64 = lives.iter().map(|live| live.aired).sum();
        self.primary += share(self.clock, time, lives);
        self.aired += lives.iter().map(|live| live.aired).sum::<u64>() - before;
        for live in lives {
            let right = live.said.is_none_or(|said| u64::from(said) == live.aired / 100);
            must(right, "a PlayedDuration that is not its time on air")?;
            if let Some(at) = self.find(live.conn, live.id) {
                self.held[at].aired = live.aired;
            }
        }
        Ok(())
    }

    /// The same of an end by abort or close, at the clock.
    pub(super) fn played(&self, record: &Record) -> Kept {
        let aired = self.of(record).map_or(0, |s| s.aired);
        let right = record.message_id != COMPLETE || u64::from(word(record.data, 9)) == aired / 100;
        must(right, "a PlayedDuration that is not its time on air")
    }

    /// 02, CR 4: "at a start the equal one on air ends at once, SpliceComplete flag 1, result 125,
    /// and its waiting followers end with Splice_Response 125, all before the new start's record".
    pub(super) fn overridden(&self, before: &[Record], record: &Record, behind: &[Record]) -> Kept {
        let start = behind.iter().find(|r| !is_kind(r, id::SPLICE_RESPONSE, 125));
        let start = start.filter(|r| is_kind(r, COMPLETE, 100) && r.data[4] == 0);
        let new = start.and_then(|r| self.of(r));
        if record.message_id == id::SPLICE_RESPONSE {
            let ended = before.iter().rfind(|r| r.message_id == COMPLETE);
            let ended = ended.is_some_and(|r| r.result == 125 && r.connection == record.connection);
            return must(ended && new.is_some(), "125 of no follower");
        }
        let Some(old) = self.of(record) else {
            return must(false, "a record of a session that is not held");
        };
        let wins = |s: &Held| s.start >= old.end || (s.overrides && s.access == old.access);
        must(new.is_none_or(wins), "ended at once by another than an equal")?;
        let at_once = new.is_some_and(|s| s.start < old.end);
        let highest = self.on_air().map(|top| (top.conn, top.id)) == Some((old.conn, old.id));
        // One that ends with the one above it may be the highest by then.
        let with_it = before.last().is_some_and(|r| r.data.get(4) == Some(&1));
        must(highest || !at_once, "ended at once and not on air")?;
        must(at_once || !highest || with_it, "on air and ended by nobody")
    }
}
