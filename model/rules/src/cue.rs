//! 02, CR 7: the cue call. "It reads the connections' states and changes nothing; the clock plays no part."

use crate::bytes::{Record, What};
use crate::sections::{Comes, Given, INVALID};
use crate::state::{Splicer, ROOM};

/// "send Cue_Request (both Result fields 0xFFFF) with the time and the whole section"; "General_Response 117 to the same
/// connections"; or it "writes nothing".
pub fn cue(s: &mut Splicer, given: &Given, room: usize) -> Result<Vec<Record>, u8> {
    s.moved = 0;
    if let Some(number) = s.cue_refused(given, room) {
        return Err(number);
    }
    let (comes, _) = s.rules.sections.judged(&given.section);
    let what = match comes {
        Comes::Nothing => return Ok(Vec::new()),
        Comes::Bad => What::General { result: INVALID },
        Comes::At(_) | Comes::Timeless => {
            let (seconds, micros) = s.rules.sections.time_of(comes, given);
            What::Cue { seconds, micros, section: given.section.clone() }
        }
    };
    let record = |conn: u8| Record { conn, what: what.clone() };
    Ok(s.cue_to().into_iter().map(record).collect())
}

/// "house numbers in the order 2, 8 for the caller's instant, 11".
pub fn cue_refused(s: &Splicer, given: &Given, room: usize) -> Option<u8> {
    if room < ROOM {
        return Some(2);
    }
    if given.micros > 999_999 {
        return Some(8);
    }
    (!s.rules.sections.fits(&given.section)).then_some(11)
}

/// "to every initialised connection, from 0 upward". A closed one is not initialised.
pub fn cue_to(s: &Splicer) -> Vec<u8> {
    (0..4).filter(|conn| s.open[usize::from(*conn)] && s.initialised[usize::from(*conn)]).collect()
}
