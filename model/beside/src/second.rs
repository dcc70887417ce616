//! The second engine (02, CR 12) of the archive, as the second program's trait has it, with every word of a reply: the one
//! place that calls its functions. `ENGINE` says which engine is compared.

use model::people::recall::{Asked, Remembers, Reply};
use splicer::bench::raw::linked;

/// The words of a reply: refused, consumed, written, moved.
const REPLY: usize = 4;
/// What stands behind them before and after a call.
const GUARD: u64 = 0x5AFE_5AFE_5AFE_5AFE;

/// The archive's.
pub struct Archive;

impl Remembers for Archive {
    fn call(&self, log: &mut [u8], asked: &Asked, out: &mut [u8]) -> Reply {
        let mut words = [GUARD; REPLY + 1];
        // SAFETY: every slice lives through the call and has the length handed in with it; the log, the output
        // buffer and the reply are lent for writing, so nothing overlaps; the reply has its four words.
        unsafe { handed(log, asked, out, words.as_mut_ptr()) };
        let [refused, consumed, written, moved, behind] = words;
        assert_eq!(behind, GUARD, "a word behind the reply changed");
        Reply {
            refused: u8::try_from(refused).unwrap_or(u8::MAX),
            consumed: consumed as usize,
            written: written as usize,
            moved: moved as usize,
        }
    }
}

/// The call itself. Its slices must live through it, and `reply` point to four words apart from them.
unsafe fn handed(log: &mut [u8], asked: &Asked, out: &mut [u8], reply: *mut u64) {
    let (log, size) = (log.as_mut_ptr(), log.len());
    let (out, room) = (out.as_mut_ptr(), out.len());
    match *asked {
        Asked::Fresh => linked::recall_fresh(log, size, reply),
        Asked::Open(conn) => linked::recall_open(log, size, conn, reply),
        Asked::Close(conn) => linked::recall_close(log, size, conn, out, room, reply),
        Asked::Message(conn, read, maps) => linked::recall_message(
            log,
            size,
            conn,
            read.as_ptr(),
            read.len(),
            maps.primary.as_ptr(),
            maps.primary.len(),
            maps.insertion.as_ptr(),
            maps.insertion.len(),
            out,
            room,
            reply,
        ),
        Asked::Tick(seconds, micros) => {
            linked::recall_tick(log, size, seconds, micros, out, room, reply);
        }
    }
}

/// The engine that is compared: the archive's. (`&model::people::recall::Recall`, the second program's own, tries the comparison itself.)
pub const ENGINE: &dyn Remembers = &Archive;
