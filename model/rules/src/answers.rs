//! 01, "Answering a message, first that applies": 1 to 5, Init and Alive. Splice and Abort have modules of their own.

use crate::bytes::{Record, What};
use crate::calls::text_of;
use crate::requests::Request;
use crate::state::{First, Maps, Out, Splicer};
use crate::times::{wire, NONE};

pub fn answer(s: &mut Splicer, conn: u8, id: u16, data: &[u8], maps: &Maps, out: Out) {
    match s.first_answer(conn, id) {
        First::Silence => {}
        First::General(result) => general(conn, result, out),
        First::Read => s.read_and_obey(conn, id, data, maps, out),
    }
}

/// 1 to 4.
pub fn first_answer(s: &Splicer, conn: u8, id: u16) -> First {
    // 1. "ID 0x0000: no answer."
    if id == 0x0000 {
        return First::Silence;
    }
    // 2. "Not initialised and not Init_Request: General_Response 103."
    if !s.initialised[usize::from(conn)] && id != 0x0001 {
        return First::General(103);
    }
    // 3. "ID 0x000D: no answer."
    if id == 0x000D {
        return First::Silence;
    }
    // 4. "ID not in the list of four: General_Response 120." 02, CR 8, adds 0x0003, CR 6 0x000A.
    match [0x0001, 0x0003, 0x0005, 0x0007, 0x000A, 0x000E].contains(&id) {
        true => First::Read,
        false => First::General(120),
    }
}

/// 5. "Not readable: General_Response 123."
pub fn read_and_obey(s: &mut Splicer, conn: u8, id: u16, data: &[u8], maps: &Maps, out: Out) {
    match s.rules.reading.read(id, data) {
        Ok(request) => s.obey(conn, request, maps, out),
        Err(_) => general(conn, 123, out),
    }
}

fn general(conn: u8, result: u16, out: Out) {
    out.push(Record { conn, what: What::General { result } });
}

pub fn obey(s: &mut Splicer, conn: u8, request: Request, maps: &Maps, out: Out) {
    match request {
        Request::Init { revision, name, hardware } => s.init(conn, revision, &name, &hardware, out),
        Request::Alive => out.push(Record { conn, what: s.alive(conn) }),
        Request::Splice(fields) => s.splice(conn, &fields, out),
        Request::Abort { id } => s.abort(conn, id, out),
        Request::Config => s.config(conn, maps, out),
        Request::Extended { id } => s.extended(conn, id, out),
    }
}

/// "Init: Revision not 2 gives 102, another name 104, else 100 and initialised. A failed
/// later Init leaves the connection initialised. All three are Init_Response."
pub fn init(s: &mut Splicer, conn: u8, revision: u16, name: &[u8; 32], hardware: &[u8], out: Out) {
    let result = match revision {
        2 if s.same_name(name) => 100,
        2 => 104,
        _ => 102,
    };
    s.keep_hardware(conn, result, hardware);
    if result == 100 {
        s.initialised[usize::from(conn)] = true;
    }
    out.push(Record { conn, what: What::Init { result, revision: 2, name: s.name } });
}

/// "bytes after it don't count when names are compared"
pub fn same_name(s: &Splicer, name: &[u8; 32]) -> bool {
    text_of(name) == text_of(&s.name)
}

/// "Alive: 100; State 2 and the SessionID on air, or State 1 and 0xFFFFFFFF; the present
/// clock, microseconds rounded down." It is the same for every connection, which is given for a reading that has one for each.
pub fn alive(s: &Splicer, _: u8) -> What {
    let (state, id) = s.on_air().map_or((1, NONE), |on_air| (2, on_air.id));
    let (seconds, micros) = wire(s.clock);
    What::Alive { result: 100, state, id, seconds, micros }
}
