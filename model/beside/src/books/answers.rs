//! 01, "Answering a message, first that applies", as far as records show it.

use super::bytes::*;
use super::{Books, Held};
use splicer::{message_id as id, result, Record, HEADER};

impl Books {
    /// "Answering a message, first that applies", as far as records show it.
    pub(super) fn answered(&mut self, conn: u8, message: &[u8], list: &[Record]) -> Kept {
        let ready = self.initialised[usize::from(conn)];
        let kind = half(message, 0);
        let general = |code: u16| matches!(list, [r] if is(r, conn, id::GENERAL_RESPONSE, code));
        match kind {
            id::GENERAL_RESPONSE => return must(list.is_empty(), "0x0000 answered"),
            id::INIT_REQUEST => {}
            _ if !ready => return must(general(result::ACCESS_DENIED), "no 103"),
            0x000D => return must(list.is_empty(), "0x000D answered"),
            id::ALIVE_REQUEST | id::SPLICE_REQUEST | id::ABORT_REQUEST => {}
            CONFIG_REQUEST | EXTENDED_REQUEST => {}
            _ => return must(general(result::UNKNOWN_MESSAGE), "no 120"),
        }
        let data = &message[HEADER..];
        unreadable(kind, data, general(result::INVALID_DATA))?;
        if general(result::INVALID_DATA) {
            return Ok(());
        }
        let splice = kind == id::SPLICE_REQUEST;
        let good = |tail: &[u8]| mux_of(&tail[15..]).is_some();
        let readable = data.len() >= least(kind) && (!splice || tail(data).is_some_and(good));
        must(readable, "unreadable and answered")?;
        match (kind, list) {
            (id::INIT_REQUEST, [answer]) => self.init(conn, data, answer),
            (id::ALIVE_REQUEST, [answer]) => self.alive(conn, answer),
            (id::ABORT_REQUEST, [answer, ends @ ..]) => self.abort(conn, data, answer, ends),
            (EXTENDED_REQUEST, [answer]) => self.extended(conn, data, answer),
            (CONFIG_REQUEST, [answer]) => self.config(conn, answer),
            (id::SPLICE_REQUEST, [evicted @ .., answer]) => {
                let ask = (data, tail(data).unwrap_or_default());
                self.splice(conn, ask, evicted, answer)
            }
            _ => must(false, "not the answers of its kind"),
        }
    }

    /// "Revision not 2 gives 102, another name 104, else 100 and initialised."
    pub(super) fn init(&mut self, conn: u8, data: &[u8], answer: &Record) -> Kept {
        let version = (half(data, 0) != 2) == (answer.result == result::INVALID_VERSION);
        must(version, "102 not by the revision")?;
        let kind = answer.message_id == id::INIT_RESPONSE && answer.connection == conn;
        must(kind && half(answer.data, 0) == 2, "no Init_Response")?;
        if answer.result == result::SUCCESSFUL {
            self.initialised[usize::from(conn)] = true;
            self.hardware[usize::from(conn)] = hardware(data).unwrap_or_default().to_vec();
        }
        let shown = answer.data[2..].to_vec();
        let name = self.name.get_or_insert(shown);
        must(answer.data[2..] == name[..], "another ChannelName")
    }

    /// 02, CR 6: "ChannelName, the Hardware_Config of their Init_Request and the output channel's program map section".
    pub(super) fn config(&self, conn: u8, answer: &Record) -> Kept {
        must(is(answer, conn, CONFIG_RESPONSE, 100), "no GetConfig_Response")?;
        let name = self.name.clone().unwrap_or_default();
        let wanted = [&name[..], &self.hardware[usize::from(conn)], self.map()].concat();
        must(answer.data == wanted, "another configuration")
    }

    /// The map section of the feed on air.
    pub(super) fn map(&self) -> &[u8] {
        match self.on_air() {
            Some(_) => &self.lent.insertion,
            None => &self.lent.primary,
        }
    }

    /// "State 2 and the SessionID on air, or State 1 and 0xFFFFFFFF; the present clock, microseconds rounded down."
    pub(super) fn alive(&self, conn: u8, answer: &Record) -> Kept {
        must(is(answer, conn, id::ALIVE_RESPONSE, 100), "no Alive_Response")?;
        let (state, session) = match self.on_air() {
            Some(s) => (2, s.id),
            None => (1, NONE),
        };
        let shown = (word(answer.data, 0), word(answer.data, 4));
        must(shown == (state, session), "another one on air")?;
        let clock = ninths(word(answer.data, 8), word(answer.data, 12));
        must(clock == self.clock / 9 * 9, "another clock")
    }

    /// "121 if this connection doesn't hold the SessionID; else 100, then the session's end and after it its followers' ends".
    pub(super) fn abort(&mut self, conn: u8, data: &[u8], answer: &Record, ends: &[Record]) -> Kept {
        let session = word(data, 0);
        let (code, first) = match self.find(conn, session) {
            Some(_) => (result::SUCCESSFUL, Some(session)),
            None => (result::INVALID_SESSION, None),
        };
        must(is(answer, conn, id::ABORT_RESPONSE, code), "another Abort_Response")?;
        must(word(answer.data, 0) == session, "another's Abort_Response")?;
        let found = ends.first().map(|r| word(r.data, 0));
        must(found == first, "the aborted session is not the first to end")?;
        for record in ends {
            let own = record.connection == conn && record.result == result::ABORTED;
            must(own, "an abort ended another's session or without 116")?;
            self.played(record)?;
            self.session(record)?;
        }
        Ok(())
    }

    /// 02, CR 8: "the asking connection's latest ended session of that number, in one descriptor of ours"; "121
    /// with the SessionID alone where none is kept".
    pub(super) fn extended(&self, conn: u8, data: &[u8], answer: &Record) -> Kept {
        let session = word(data, 0);
        let own = |e: &&Ended| e.conn == conn && e.id == session;
        let (code, shown) = match self.ended.iter().find(own) {
            Some(e) => (result::SUCCESSFUL, descriptor(e)),
            None => (result::INVALID_SESSION, Vec::new()),
        };
        let kind = is(answer, conn, EXTENDED_RESPONSE, code);
        must(kind, "another ExtendedData_Response")?;
        let wanted = [&data[..4], &shown].concat();
        must(answer.data == wanted, "another end than the latest kept")
    }

    /// "Splice_Response with the first that applies"; "written before the 100" the evicted ones.
    pub(super) fn splice(&mut self, conn: u8, ask: Ask, evicted: &[Record], answer: &Record) -> Kept {
        let (data, _) = ask;
        let code = self.code(conn, ask);
        must(is(answer, conn, id::SPLICE_RESPONSE, code), "another result code")?;
        must(word(answer.data, 0) == word(data, 0), "another's Splice_Response")?;
        must(code == 100 || evicted.is_empty(), "evicted and not accepted")?;
        let start = self.start(conn, data);
        for record in evicted {
            must(is_kind(record, id::SPLICE_RESPONSE, 109), "evicted without 109")?;
            self.session(record)?;
        }
        if code == 100 {
            self.accepted(conn, ask, start)?;
        }
        Ok(())
    }

    /// "End is start plus Duration." 02, CR 11: moved "equals the waiting sessions, after any
    /// eviction, whose start is later than the new one's, and is at most 63".
    pub(super) fn accepted(&mut self, conn: u8, (data, tail): Ask, start: u64) -> Kept {
        let waiting = self.held.iter().filter(|s| !s.started);
        self.moved = waiting.filter(|s| s.start > start).count();
        must(self.moved <= 63, "more than 63 places moved")?;
        let mut waiting = self.held.iter().filter(|s| !s.started);
        must(waiting.all(|s| s.start != start), "two waiting with one start")?;
        let duration = word(tail, 0);
        self.held.push(Held {
            conn,
            id: word(data, 0),
            prior: word(data, 4),
            start,
            end: start + u64::from(duration) * 100,
            duration,
            access: tail[12],
            overrides: tail[13] == 1,
            mux: mux_of(&tail[15..]).unwrap_or(5),
            event: word(tail, 4),
            started: false,
            aired: 0,
        });
        Ok(())
    }

    /// b to f.
    pub(super) fn code(&self, conn: u8, (data, tail): Ask) -> u16 {
        let (session, prior) = (word(data, 0), word(data, 4));
        let known = session == NONE || self.find(conn, session).is_some();
        if known || (prior != NONE && self.find(conn, prior).is_none()) {
            return result::INVALID_SESSION;
        }
        let start = self.start(conn, data);
        if prior == NONE && start < self.clock + 3 * SECOND {
            return result::TOO_LATE;
        }
        let mut waiting = self.held.iter().filter(|s| !s.started);
        // 02, CR 4: "109 at check d, for equals, only at flag 0".
        let least = tail[12] + tail[13];
        if waiting.any(|s| s.start == start && s.access >= least) {
            return result::COLLISION;
        }
        let counts = self.counts();
        let own = counts[usize::from(conn)];
        let sum: usize = counts.iter().map(|n| *n.max(&10)).sum();
        if own == 20 || (own >= 10 && sum == 64) {
            return result::QUEUE_FULL;
        }
        result::SUCCESSFUL
    }

    /// "A timed start is the request's time; a linked start is the prior session's end."
    pub(super) fn start(&self, conn: u8, data: &[u8]) -> u64 {
        match word(data, 4) {
            NONE => ninths(word(data, 8), word(data, 12)),
            prior => self.find(conn, prior).map_or(0, |at| self.held[at].end),
        }
    }
}
