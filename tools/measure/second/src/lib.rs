//! The second program's own engine (model/rules: an unordered list, scanned for each question) by C names.
//! A record is made, turned into bytes and copied to the lent buffer, as that program makes its records.

// The bench lends the place where the pointer stands.
#![allow(clippy::borrowed_box)]

use rules::bytes::{all_bytes, Record};
use rules::state::Splicer;
use std::slice;

/// The list itself lies where the allocator puts it.
#[derive(Clone)]
#[repr(align(64))]
pub struct Engine(Splicer);

#[repr(C)]
pub struct Reply {
    refused: u32,
    moved: u32,
    consumed: usize,
    written: usize,
}

impl Reply {
    fn refusal(number: u8) -> Reply {
        Reply {
            refused: number.into(),
            moved: 0,
            consumed: 0,
            written: 0,
        }
    }

    /// # Safety
    /// `out` leads to a buffer that takes the records.
    unsafe fn good(records: &[Record], consumed: usize, out: *mut u8) -> Reply {
        let bytes = all_bytes(records);
        out.copy_from_nonoverlapping(bytes.as_ptr(), bytes.len());
        Reply {
            refused: 0,
            moved: 0,
            consumed,
            written: bytes.len(),
        }
    }
}

/// The engine keeps connections in a byte; document 01 knows only "above 3".
fn byte(conn: u32) -> u8 {
    conn.min(255) as u8
}

#[no_mangle]
pub extern "C" fn second_size() -> usize {
    size_of::<Option<Box<Engine>>>()
}

/// `s` is null before the first call.
#[no_mangle]
pub extern "C" fn second_fresh(s: &mut Option<Box<Engine>>, name: &[u8; 32]) -> Reply {
    let (splicer, refused) = Splicer::fresh(name);
    *s = Some(Box::new(Engine(splicer)));
    Reply::refusal(refused.unwrap_or(0))
}

/// Keeps a copy for `second_restore`.
#[no_mangle]
pub extern "C" fn second_keep(base: &mut Option<Box<Engine>>, s: &Box<Engine>) {
    *base = Some(s.clone());
}

/// Back to the copy, by as many instructions whatever happened since.
#[no_mangle]
pub extern "C" fn second_restore(s: &mut Box<Engine>, base: &Box<Engine>) {
    let (s, base) = (&mut s.0, &base.0);
    s.clock = base.clock;
    s.primary = base.primary;
    s.open = base.open;
    s.initialised = base.initialised;
    s.name = base.name;
    s.sessions.clear();
    s.sessions.extend_from_slice(&base.sessions);
}

#[no_mangle]
pub extern "C" fn second_open(s: &mut Box<Engine>, conn: u32) -> Reply {
    Reply::refusal(s.0.open(byte(conn)).err().unwrap_or(0))
}

/// # Safety
/// `out` leads to `room` bytes that only this call uses.
#[no_mangle]
pub unsafe extern "C" fn second_close(
    s: &mut Box<Engine>,
    conn: u32,
    out: *mut u8,
    room: usize,
) -> Reply {
    match s.0.close(byte(conn), room) {
        Ok(records) => Reply::good(&records, 0, out),
        Err(number) => Reply::refusal(number),
    }
}

/// # Safety
/// `input` leads to `length` bytes, `out` to `room` bytes that only this call uses.
#[no_mangle]
pub unsafe extern "C" fn second_message(
    s: &mut Box<Engine>,
    conn: u32,
    input: *const u8,
    length: usize,
    out: *mut u8,
    room: usize,
) -> Reply {
    let bytes = slice::from_raw_parts(input, length);
    match s.0.message(byte(conn), bytes, room) {
        Ok((records, consumed)) => Reply {
            moved: s.0.moved as u32,
            ..Reply::good(&records, consumed, out)
        },
        Err(number) => Reply::refusal(number),
    }
}

/// # Safety
/// `out` leads to `room` bytes that only this call uses.
#[no_mangle]
pub unsafe extern "C" fn second_tick(
    s: &mut Box<Engine>,
    seconds: u32,
    micros: u32,
    out: *mut u8,
    room: usize,
) -> Reply {
    match s.0.tick(seconds, micros, room) {
        Ok(records) => Reply::good(&records, 0, out),
        Err(number) => Reply::refusal(number),
    }
}

/// How many sessions of each connection wait, counted in its list.
#[no_mangle]
pub extern "C" fn second_waiting(s: &Box<Engine>, counts: &mut [u64; 4]) {
    *counts = s.0.waiting_counts().map(|n| n as u64);
}

/// What the one on air asked of the multiplexer, 5 with none.
#[no_mangle]
pub extern "C" fn second_mux(s: &Box<Engine>) -> u32 {
    s.0.mux().into()
}

/// The primary channel's time, in ninths.
#[no_mangle]
pub extern "C" fn second_primary(s: &Box<Engine>) -> u64 {
    s.0.primary
}
