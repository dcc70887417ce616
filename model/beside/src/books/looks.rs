//! What is read beside the records.

use super::bytes::*;
use super::{Books, Held};
use crate::calls::{Row, ROWS};
use crate::looks::{self, State, Told};
use splicer::CONNECTIONS;

impl Books {
    /// 02, CR 13: "the growth of the time on the primary channel plus that of all sessions' time on air, in
    /// ninths, equals the clock's advance".
    pub fn primary(&self, found: u64) -> Kept {
        must(found == self.primary, "another time on the primary channel")?;
        let together = self.primary + self.aired;
        must(together == self.clock, "a moment that is nobody's, or two's")
    }

    /// 02, CR 6: "the caller lends both sections [..] and gets back the one on air".
    pub fn insertion(&self, found: bool) -> Kept {
        must(found == self.on_air().is_some(), "the map of another feed")
    }

    /// 02, CR 8: the page is "filled from the newest down, unused rows marked empty, numbers 0".
    pub fn rows(&self, found: &[Row; ROWS]) -> Kept {
        let row = |e: &Ended| [1, e.conn.into(), e.id, e.event, e.result.into(), e.played];
        let mut wanted = [[0; 6]; ROWS];
        for (place, ended) in wanted.iter_mut().zip(&self.ended) {
            *place = row(ended);
        }
        must(*found == wanted, "another page of what ended lately")
    }

    /// Demand 3: a connection's waiting sessions "from the answers alone: accepted since it was
    /// opened, less those whose start or end was written".
    pub fn waiting(&self, found: [u64; CONNECTIONS]) -> Kept {
        let counted = self.counts().map(|n| n as u64);
        must(found == counted, "another count of those that wait")
    }

    /// 02, CR 5: "the caller can read that of the one on air, 5 with none".
    pub fn mux(&self, found: u8) -> Kept {
        let asked = self.on_air().map_or(5, |s| s.mux);
        must(found == asked, "another muxpriority value on air")
    }

    /// What is held, as it is read.
    fn sessions(&self) -> impl Iterator<Item = looks::Row> + '_ {
        let row = |(place, s): (usize, &Held)| looks::Row {
            start: s.start,
            end: s.end,
            played: s.aired,
            conn: s.conn.into(),
            id: s.id,
            event: s.event,
            prior: (s.prior != NONE).then_some(s.prior),
            access: s.access,
            overrides: s.overrides,
            mux: s.mux,
            state: match (s.started, place) {
                (true, 0) => State::OnAir,
                (true, _) => State::Covered,
                _ => State::Waiting,
            },
        };
        self.held.iter().enumerate().map(row)
    }

    /// The next start or end, in ninths.
    pub fn instant(&self) -> Option<u64> {
        self.held.iter().map(|s| if s.started { s.end } else { s.start }).min()
    }

    /// The reads of a driver that sleeps. The first tick that reaches an instant: rounded up to a microsecond, within the range.
    pub fn reads(&self, found: &Told) -> Kept {
        let air = self.sessions().next().filter(|s| s.state == State::OnAir).map(|s| s.air());
        must(self.sessions().eq(found.sessions.iter().copied()), "other sessions read")?;
        must(found.air == air, "another one read as on air")?;
        let due = self.instant().map(|instant| {
            let micros = instant / 9 + u64::from(instant % 9 != 0);
            let seconds = u32::try_from(micros / 1_000_000).ok();
            (instant, seconds.map(|seconds| (seconds, (micros % 1_000_000) as u32)))
        });
        must(found.due == due, "another instant read as due")
    }
}
