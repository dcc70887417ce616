//! 01, "Instants", its last paragraph: followers, abort and close; and the records of an end.

use crate::bytes::{Record, What};
use crate::state::{By, Out, Session, Splicer, State};
use crate::times::TICK;

/// "Bitrate 4 (always 0 here)". "PlayedDuration is time on air only, summed in ninths, divided by 100, rounded down": `time`
/// is the sum. An end is kept (02, CR 8).
pub fn complete(s: &mut Splicer, session: &Session, (flag, result): (u8, u16), time: u64, out: Out) {
    let played = (time / TICK) as u32;
    let what = What::Complete { result, id: session.id, flag, bitrate: 0, played };
    // "a session's record: the one that requested it"
    out.push(Record { conn: session.conn, what });
    if flag == 1 || result == 109 {
        s.remember(session, By::Complete(flag), result, played);
    }
}

/// An end that is no SpliceComplete. It is kept (02, CR 8).
pub fn splice_response(s: &mut Splicer, session: &Session, result: u16, out: Out) {
    out.push(Record { conn: session.conn, what: What::Splice { result, id: session.id } });
    let played = s.unshown(session);
    s.remember(session, By::Splice, result, played);
}

/// "Followers of a session are the waiting ones that reach it through PriorSession, link by link and over waiting ones only, within
/// its connection (a started session's PriorSession no longer counts [...])". "in order of start"
pub fn followers(s: &Splicer, of: &Session) -> Vec<Session> {
    let (mut found, mut reached, mut next) = (Vec::new(), vec![of.id], 0);
    while next < reached.len() {
        let prior = reached[next];
        for session in s.waiting().filter(|w| w.conn == of.conn && w.prior == prior) {
            if !reached.contains(&session.id) {
                reached.push(session.id);
                found.push(session.clone());
            }
        }
        next += 1;
    }
    found.sort_by_key(|session| session.start);
    found
}

/// "Followers' ends are Splice_Response 109, or 116 after an abort or close, in order of
/// start." 02, CR 4: 125 of one ended by an equal start.
pub fn end_followers(s: &mut Splicer, of: &Session, result: u16, out: Out) {
    for follower in s.followers(of) {
        splice_response(s, &follower, result, out);
        s.remove(&follower);
    }
}

/// "Abort: Abort_Response 121 if this connection doesn't hold the SessionID; else 100,
/// then the session's end and after it its followers' ends".
pub fn abort(s: &mut Splicer, conn: u8, id: u32, out: Out) {
    let session = s.held(conn, id).cloned();
    let result = if session.is_some() { 100 } else { 121 };
    out.push(Record { conn, what: What::Abort { result, id } });
    if let Some(session) = session {
        s.aborted_end(&session, out);
        s.remove(&session);
        s.end_followers(&session, 116, out);
        s.on_air_again(s.clock);
    }
}

/// "An aborted session on air ends with SpliceComplete flag 1, result 116; a covered or waiting one with Splice_Response 116."
pub fn aborted_end(s: &mut Splicer, session: &Session, out: Out) {
    if session.state == State::OnAir {
        let time = s.time_on_air(session, s.clock);
        complete(s, session, (1, 116), time, out);
    } else {
        splice_response(s, session, 116, out);
    }
}

/// "Close ends, as by abort, the connection's started sessions from the highest AccessType down, each by what it was before the
/// close (on air or covered), then all its waiting ones by start, followers among them, each once".
pub fn end_all_of(s: &mut Splicer, conn: u8, out: Out) {
    let own = s.sessions.iter().filter(|session| session.conn == conn).cloned();
    let (mut waiting, mut started): (Vec<Session>, Vec<Session>) = own.partition(|s| s.state == State::Waiting);
    started.sort_by_key(|session| std::cmp::Reverse(session.access));
    waiting.sort_by_key(|session| session.start);
    for session in started.iter().chain(&waiting) {
        s.aborted_end(session, out);
        s.remove(session);
    }
    s.on_air_again(s.clock);
}
