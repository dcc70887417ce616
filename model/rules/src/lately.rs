//! What ended lately (02, CR 8): the last 16 ended sessions, ExtendedData_Request over them, and the desk's page.

use crate::bytes::{Record, Shown, What};
use crate::state::{By, Ended, Row, Session, Splicer, State};
use crate::times::TICK;

/// "The state now also keeps the last 16 ended sessions".
pub const KEPT: usize = 16;
/// "house number 16 for other than sixteen rows"
pub const NOT_SIXTEEN: u8 = 16;

/// "The state now also keeps the last 16 ended sessions [...] oldest dropped first". `result` is the
/// end record's, and the session as it was when its end was written. The kind of record is given for a reading that keeps some.
pub fn remember(s: &mut Splicer, session: &Session, _: By, result: u16, played: u32) {
    if s.ended.len() == KEPT {
        s.ended.remove(0);
    }
    let Session { conn, id, event, .. } = *session;
    s.ended.push(Ended { conn, id, event, result, played });
}

/// "PlayedDuration (0 if never on air)", of an end whose record has none: waiting, or covered, when its time on air does not grow.
pub fn unshown(_: &Splicer, session: &Session) -> u32 {
    match session.state {
        State::Waiting => 0,
        _ => (session.played / TICK) as u32,
    }
}

/// "the asking connection's latest ended session of that number"
pub fn latest_ended(s: &Splicer, conn: u8, id: u32) -> Option<Ended> {
    s.ended.iter().rev().find(|ended| ended.conn == conn && ended.id == id).copied()
}

/// "answered with [it], in one descriptor of ours"; "121 with the SessionID alone where none is kept". It changes nothing.
pub fn extended(s: &mut Splicer, conn: u8, id: u32, out: &mut Vec<Record>) {
    let shown = s.latest_ended(conn, id).map(|Ended { event, result, played, .. }| Shown { event, result, played });
    let result = if shown.is_some() { 100 } else { 121 };
    out.push(Record { conn, what: What::Extended { result, id, shown } });
}

/// "For the desk's page the caller lends sixteen rows and they are filled from the newest down, unused
/// rows marked empty, numbers 0." Refused, nothing is written. It only reads.
pub fn page(s: &Splicer, rows: &mut [Row]) -> Result<(), u8> {
    if rows.len() != KEPT {
        return Err(NOT_SIXTEEN);
    }
    for (place, row) in rows.iter_mut().enumerate() {
        *row = s.ended.iter().rev().nth(place).copied();
    }
    Ok(())
}

impl Splicer {
    /// The page, with sixteen rows lent.
    pub fn rows(&self) -> [Row; KEPT] {
        let mut rows = [None; KEPT];
        let filled = self.page(&mut rows);
        debug_assert_eq!(filled, Ok(()));
        rows
    }
}
