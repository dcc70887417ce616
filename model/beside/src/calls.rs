//! A call as both programs get it, what each of them says, and the memory lent to the core.

use model::people::driver_call::short;
pub use model::people::driver_call::{Act, Call, Sections};
use model::people::record_lines;
use model::rules;

/// What a call gave: its house number or 0, the bytes consumed, the bytes written and the places
/// that an acceptance shifted (02, CR 11).
#[derive(Clone, Debug, PartialEq, Eq)]
pub struct Said {
    pub refused: u8,
    pub consumed: usize,
    pub written: Vec<u8>,
    pub moved: usize,
}

impl Said {
    /// Of the second program. 02, CR 11: nothing must have moved after a refusal too.
    pub fn of(result: Result<rules::Said, u8>, moved: usize) -> Said {
        match result {
            Ok((written, consumed)) => Said { refused: 0, consumed, written: record_lines::all_bytes(&written), moved },
            Err(number) => Said { moved, ..Said::refusal(number) },
        }
    }

    pub fn refusal(number: u8) -> Said {
        Said { refused: number, consumed: 0, written: Vec::new(), moved: 0 }
    }

    pub fn line(&self) -> String {
        match self.refused {
            0 => format!("consumed {} moved {} wrote {}", self.consumed, self.moved, short(&self.written)),
            number => format!("refused {number}"),
        }
    }
}

/// A row of the desk's page (02, CR 8) as the header's struct has it: kept, connection, session, event, result, played.
pub type Row = [u32; 6];
pub const ROWS: usize = 16;

/// The page of the second program.
pub fn model_rows(model: &rules::Splicer) -> [Row; ROWS] {
    model.rows().map(|row| row.map_or([0; 6], |row| [1, row.conn.into(), row.id, row.event, row.result.into(), row.played]))
}

/// The second program's answer.
pub fn ask_model(model: &mut rules::Splicer, act: &Act) -> Said {
    let result = act.made(model);
    Said::of(result, model.moved)
}

/// The core's answer with empty sections lent.
pub fn ask_core(core: &mut splicer::Splicer, call: &Call, out: &mut [u8]) -> Said {
    ask_core_with(core, call, &Sections::default(), out)
}

/// The core's answer, with `out` and the sections lent to it. Only a message can move places (02, CR 11).
pub fn ask_core_with(core: &mut splicer::Splicer, call: &Call, sections: &Sections, out: &mut [u8]) -> Said {
    let maps = splicer::Maps { primary: &sections.primary, insertion: &sections.insertion };
    let result = match call {
        Call::Open(conn) => core.open(*conn).map(|()| (&[][..], 0, 0)),
        Call::Close(conn) => core.close(*conn, out).map(|w| (w, 0, 0)),
        // both names of the call
        Call::Message(conn, bytes) if sections.longest() == 0 => {
            core.message(*conn, bytes, out).map(|h| (h.written, h.consumed, h.moved as usize))
        }
        Call::Message(conn, bytes) => core.message_with(*conn, bytes, maps, out).map(|h| (h.written, h.consumed, h.moved as usize)),
        Call::Tick(seconds, micros) => core.tick(*seconds, *micros, out).map(|w| (w, 0, 0)),
        Call::Fresh => panic!("fresh makes a splicer"),
        Call::Cue(given) => core.cue(&given.section, given.pts, given.seconds, given.micros, out).map(|w| (w, 0, 0)),
    };
    match result {
        Ok((written, consumed, moved)) => Said { refused: 0, consumed, written: written.to_vec(), moved },
        Err(refusal) => Said::refusal(refusal.number()),
    }
}

const GUARD: usize = 64;

/// Memory around and under the output buffers, and a copy of what it held before a call.
pub struct Desk {
    pub lent: Vec<u8>,
    kept: Vec<u8>,
    turn: usize,
}

impl Desk {
    /// For output buffers up to this length.
    pub fn new(longest: usize) -> Desk {
        let filled: Vec<u8> = (0..longest + 3 * GUARD).map(|at| at as u8).collect();
        Desk { lent: filled.clone(), kept: filled, turn: 0 }
    }

    /// Another number after every call.
    pub fn turn(&self) -> usize {
        self.turn
    }

    /// Where the next output buffer begins: at every alignment in turn.
    pub fn begin(&self) -> usize {
        GUARD + self.turn % 16
    }

    pub fn buffer(&mut self, room: usize) -> &mut [u8] {
        let begin = self.begin();
        &mut self.lent[begin..begin + room]
    }

    /// The core's answer is the second program's, written to the front of the buffer and nowhere else.
    pub fn same(&mut self, found: &Said, wanted: &Said) -> Result<(), String> {
        if found != wanted {
            return Err(format!("core: {}\nsecond program: {}", found.line(), wanted.line()));
        }
        let begin = self.begin();
        if self.lent[begin..begin + found.written.len()] != wanted.written {
            return Err("the written bytes are not at the front of the buffer".to_string());
        }
        match self.touched(found.written.len()) {
            true => Err("bytes outside the written ones changed".to_string()),
            false => Ok(()),
        }
    }

    /// True if bytes outside the written ones changed. The written ones get another filling, so that a later call is seen to write.
    pub fn touched(&mut self, written: usize) -> bool {
        let begin = self.begin();
        let end = begin + written;
        let touched = self.lent[..begin] != self.kept[..begin] || self.lent[end..] != self.kept[end..];
        self.turn += 1;
        self.lent[begin..end].fill(self.turn as u8);
        self.kept[begin..end].fill(self.turn as u8);
        if touched {
            self.kept.copy_from_slice(&self.lent);
        }
        touched
    }
}
