//! 01, "Calls and house numbers". "A refusal returns its number, writes nothing, consumes nothing and changes no state."

use crate::bytes::{half, Record};
use crate::config;
use crate::state::{Maps, Rules, Said, Splicer, LARGEST_SIZE, ROOM};
use crate::times::ninths;

/// "A string ends at its first zero byte; bytes after it don't count when names are compared."
pub fn text_of(name: &[u8; 32]) -> &[u8] {
    let end = name.iter().position(|b| *b == 0).unwrap_or(32);
    &name[..end]
}

/// "A fresh splicer has clock 0, all connections closed." "A refused fresh gives, with number 9, the splicer of an empty name."
pub fn fresh(name: &[u8; 32], rules: &'static Rules) -> (Splicer, Option<u8>) {
    let mut splicer = Splicer {
        name: [0; 32],
        clock: 0,
        open: [false; 4],
        initialised: [false; 4],
        sessions: Vec::new(),
        moved: 0,
        primary: 0,
        hardware: std::array::from_fn(|_| config::nothing()),
        ended: Vec::new(),
        rules,
    };
    if !name.contains(&0) {
        return (splicer, Some(9));
    }
    // "Names are written with zeros behind the end."
    let text = text_of(name);
    splicer.name[..text.len()].copy_from_slice(text);
    (splicer, None)
}

/// "Order: open 1, 6".
pub fn open(s: &mut Splicer, conn: u8) -> Result<(), u8> {
    s.moved = 0;
    if conn > 3 {
        return Err(1);
    }
    if s.open[usize::from(conn)] {
        return Err(6);
    }
    s.opened(conn);
    Ok(())
}

/// "Opening leaves the connection not initialised."
pub fn opened(s: &mut Splicer, conn: u8) {
    s.open[usize::from(conn)] = true;
    s.initialised[usize::from(conn)] = false;
}

/// What close and message look at first: "1, 2, 7".
fn usable(s: &Splicer, conn: u8, room: usize) -> Result<(), u8> {
    match (conn, room) {
        (4.., _) => Err(1),
        (_, ..ROOM) => Err(2),
        _ if !s.open[usize::from(conn)] => Err(7),
        _ => Ok(()),
    }
}

/// "close 1, 2, 7".
pub fn close(s: &mut Splicer, conn: u8, room: usize) -> Result<Vec<Record>, u8> {
    s.moved = 0;
    usable(s, conn, room)?;
    let mut out = Vec::new();
    s.end_all_of(conn, &mut out);
    s.closed(conn);
    Ok(out)
}

/// "and leaves it closed"; 02, CR 6: "close forgets it".
pub fn closed(s: &mut Splicer, conn: u8) {
    s.open[usize::from(conn)] = false;
    s.hardware[usize::from(conn)] = config::nothing();
}

/// "message 1, 2, 7, 5 (header), 4, 5 (body)"; 02, CR 6: "house number 10 [...] after 7". Gives the
/// records and the bytes consumed. "Message handles the first message only".
pub fn message_with(s: &mut Splicer, conn: u8, bytes: &[u8], maps: &Maps, room: usize) -> Result<Said, u8> {
    // 02, CR 11: "A request not accepted reports 0."
    s.moved = 0;
    usable(s, conn, room)?;
    if config::long_section(maps) {
        return Err(10);
    }
    if bytes.len() < 8 {
        return Err(5);
    }
    let size = usize::from(half(bytes, 2));
    if size > LARGEST_SIZE {
        return Err(4);
    }
    if bytes.len() < 8 + size {
        return Err(5);
    }
    // "Result fields of incoming messages are not read"
    let mut out = Vec::new();
    s.answer(conn, half(bytes, 0), &bytes[8..8 + size], maps, &mut out);
    Ok((out, 8 + size))
}

/// "tick 2, 8, 3". "A tick to the present time is good and writes nothing."
pub fn tick(s: &mut Splicer, seconds: u32, micros: u32, room: usize) -> Result<Vec<Record>, u8> {
    s.moved = 0;
    if room < ROOM {
        return Err(2);
    }
    match s.tick_refused(seconds, micros) {
        Some(number) => Err(number),
        None => Ok(s.bring(ninths(seconds, micros))),
    }
}

/// 8: "MicroSeconds above 999,999". 3: "clock earlier than the present one".
pub fn tick_refused(s: &Splicer, seconds: u32, micros: u32) -> Option<u8> {
    if micros > 999_999 {
        return Some(8);
    }
    (ninths(seconds, micros) < s.clock).then_some(3)
}

impl Splicer {
    /// A message with empty sections lent, as the card program does.
    pub fn message(&mut self, conn: u8, bytes: &[u8], room: usize) -> Result<Said, u8> {
        self.message_with(conn, bytes, &Maps::EMPTY, room)
    }

    /// Brings the clock to a time in ninths, not before the present one.
    pub fn bring(&mut self, until: u64) -> Vec<Record> {
        let mut out = Vec::new();
        self.work_through(until, &mut out);
        self.clock = until;
        out
    }
}
