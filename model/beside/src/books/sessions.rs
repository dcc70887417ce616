//! Who waits and who has started, from the records.

use super::bytes::*;
use super::{Books, Held};
use crate::calls::ROWS;
use splicer::{Record, CONNECTIONS};

impl Books {
    pub(super) fn counts(&self) -> [usize; CONNECTIONS] {
        let mut counts = [0; CONNECTIONS];
        for session in self.held.iter().filter(|s| !s.started) {
            counts[usize::from(session.conn)] += 1;
        }
        counts
    }

    pub(super) fn find(&self, conn: u8, session: u32) -> Option<usize> {
        let own = |s: &Held| s.conn == conn && s.id == session;
        self.held.iter().position(own)
    }

    /// Only a higher AccessType covers, and an equal one ends, so the highest started session is the one on air.
    pub(super) fn on_air(&self) -> Option<&Held> {
        let started = self.held.iter().filter(|s| s.started);
        started.max_by_key(|s| s.access)
    }

    /// A record of a session: its start or its one end, under the connection that requested it.
    pub(super) fn session(&mut self, record: &Record) -> Kept {
        let place = self.find(record.connection, word(record.data, 0));
        let Some(place) = place else {
            return must(false, "a record of a session that is not held");
        };
        let s = &self.held[place];
        let flag = (record.message_id == COMPLETE).then(|| record.data[4]);
        let played = flag.map_or(0, |_| word(record.data, 9));
        must(played <= s.duration, "played longer than its Duration")?;
        let highest = self.on_air().map(|top| (top.access, top.conn, top.id));
        let kept = match (flag, record.result) {
            (Some(0), 100) => !s.started && highest.is_none_or(|(a, ..)| s.overrides && s.access > a),
            (Some(0), 109) => !s.started && highest.is_some_and(|(a, ..)| !s.overrides || s.access < a),
            (Some(1), 100) => highest == Some((s.access, s.conn, s.id)),
            (Some(1), 116 | 125) => s.started,
            (None, 109 | 125) => !s.started,
            (None, 116) => true,
            _ => false,
        };
        must(kept, "a start or end that its session cannot have")?;
        must(flag != Some(0) || played == 0, "played before its start")?;
        if (flag, record.result) == (Some(0), 100) {
            self.held[place].started = true;
        } else {
            let gone = self.held.swap_remove(place);
            self.end(&gone, record);
        }
        Ok(())
    }

    /// 02, CR 8: "the last 16 ended sessions", with "PlayedDuration (0 if never on air)", also of an end whose record shows none.
    pub(super) fn end(&mut self, gone: &Held, record: &Record) {
        let played = match record.message_id {
            COMPLETE => word(record.data, 9),
            _ => (gone.aired / 100) as u32,
        };
        let ended = Ended { conn: gone.conn, id: gone.id, event: gone.event, result: record.result, played };
        self.ended.insert(0, ended);
        self.ended.truncate(ROWS);
    }

    /// 02, CR 4: "no two started sessions ever have the same AccessType".
    pub(super) fn apart(&self) -> Kept {
        let mut list: Vec<u8> = self.held.iter().filter(|s| s.started).map(|s| s.access).collect();
        list.sort();
        let equal = list.windows(2).any(|two| two[0] == two[1]);
        must(!equal, "two started with one AccessType")
    }

    /// "the started from the highest AccessType down, then the waiting in order of start"
    pub(super) fn order(&mut self) {
        self.held.sort_by_key(|s| if s.started { (0, 9 - u64::from(s.access)) } else { (1, s.start) });
    }

    /// After every call that wrote: the places, and each waiting linked session behind the one it names.
    pub(super) fn holds(&self) -> Kept {
        let counts = self.counts();
        must(counts.iter().all(|n| *n <= 20), "more than 20 waiting")?;
        let all: usize = counts.iter().sum();
        must(all <= 64, "more than 64 waiting")?;
        must(self.held.len() - all <= 10, "more than 10 started")?;
        self.apart()?;
        for (place, s) in self.held.iter().enumerate() {
            must(self.open[usize::from(s.conn)], "held by a closed connection")?;
            must(self.find(s.conn, s.id) == Some(place), "one number held twice")?;
            if s.started || s.prior == NONE {
                continue;
            }
            let prior = self.find(s.conn, s.prior).map(|at| self.held[at].end);
            must(prior == Some(s.start), "a follower without its prior session")?;
        }
        Ok(())
    }

    /// The session of a record.
    pub(super) fn of(&self, record: &Record) -> Option<&Held> {
        let place = self.find(record.connection, word(record.data, 0))?;
        Some(&self.held[place])
    }
}
