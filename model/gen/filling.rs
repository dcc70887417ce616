//! Calls that fill a log (02, CR 12) to the byte and to the call, and calls behind the last that is answered.

use crate::gen::draw::Gen;
use crate::people::card::Call;
use crate::people::recall::{LEAST_FREE, LOG, MOST};
use crate::rules::{State, LARGEST_SIZE, NONE};

/// The bytes of the log that the good calls so far leave.
pub fn free(gen: &Gen) -> usize {
    LOG.saturating_sub(gen.kept_bytes)
}

/// Whether the next call gets 13.
pub fn full(gen: &Gen) -> bool {
    gen.kept >= MOST as u64 || free(gen) < LEAST_FREE
}

/// A header with MessageSize above 4,088, and calls behind it that must not be made.
pub fn oversize(gen: &mut Gen) {
    gen.bytes.extend([0x4D, gen.rng.pick(&[0, 1, 2, 3, 4]), 0, 1, 0x0F, 0xF9, 0, 0, 0, 0]);
    gen.bytes.extend([0x4F, 0, 0x43, 0, 0x4F, 9]);
}

/// A connection that is open; if there is none, one is opened.
pub fn opened(gen: &mut Gen) -> u8 {
    let list: Vec<u8> = (0..4).filter(|c| gen.model.open[usize::from(*c)]).collect();
    if list.is_empty() {
        gen.call(Call::Open(0));
        return 0;
    }
    gen.rng.pick(&list)
}

/// Messages until exactly this many calls are kept in exactly this many bytes, if that can be.
pub fn exactly(gen: &mut Gen, kept: u64, bytes: usize) {
    let conn = opened(gen);
    let largest = 10 + LARGEST_SIZE;
    while gen.kept < kept {
        // of what is left, the others can take no more and no less than this
        let (others, gap) = ((kept - gen.kept - 1) as usize, bytes - gen.kept_bytes);
        let low = gap.saturating_sub(others * largest).max(10);
        let high = gap.saturating_sub(others * 10).min(largest);
        if low > high {
            return;
        }
        let record = gen.rng.pick(&[gen.rng.between(low as u64, high as u64) as usize, low, 18.clamp(low, high), high]);
        sized(gen, conn, record - 10);
    }
}

/// A message with so many bytes of data: readable or not, answered or not.
pub fn sized(gen: &mut Gen, conn: u8, size: usize) {
    let id = gen.rng.pick(&[0x0000, 0x000D, 0x0100, 0x0001, 0x0007]);
    let any = |gen: &mut Gen| (0..size).map(|_| gen.rng.next() as u8).collect();
    let data = match (id, size) {
        (_, 0) => return gen.config(conn),
        (_, 8) if gen.rng.chance(70) => return gen.alive(conn),
        (0x0001, 322..) => {
            let mut data = gen.rng.good_init();
            data.resize(size, 7);
            data
        }
        (0x0007, 33 | 39..) => large_splice(gen, conn, size),
        (0x0001, _) => vec![0; size],
        _ => any(gen),
    };
    gen.send(conn, id, data);
}

/// A readable Splice_Request of so many bytes of data, filled with descriptors.
pub fn large_splice(gen: &mut Gen, conn: u8, size: usize) -> Vec<u8> {
    let ask = gen.timed(conn, gen.ahead(gen.rng.between(0, 60)));
    let mut data = gen.rng.plain_data(&ask);
    data.truncate(33);
    while data.len() < size {
        // a descriptor has 6 to 256 bytes, and so many are left for the next
        let left = size - data.len();
        let whole = if left > 256 { (left - 6).min(256) } else { left };
        data.extend(gen.rng.descriptor((whole - 2) as u8));
    }
    data
}

/// A call that is refused. It counts nothing.
pub fn refused(gen: &mut Gen) {
    let above = gen.rng.pick(&[4, 5, 128, 255]);
    let closed: Vec<u8> = (0..4).filter(|c| !gen.model.open[usize::from(*c)]).collect();
    match gen.rng.below(8) {
        0 => gen.call(Call::Open(above)),
        1 => gen.call(Call::Close(above)),
        2 => gen.alive(above),
        3 => {
            gen.call(Call::Tick(NONE, gen.rng.pick(&[1_000_000, 1_000_001, NONE])));
        }
        4 if gen.now() > 0 => {
            gen.tick_to(gen.now() - gen.rng.pick(&[1, 1, gen.now()]));
        }
        5 if !closed.is_empty() => {
            gen.call(Call::Close(gen.rng.pick(&closed)));
        }
        6 if !closed.is_empty() => {
            gen.alive(gen.rng.pick(&closed));
        }
        _ if closed.len() < 4 => {
            let conn = opened(gen);
            gen.call(Call::Open(conn));
        }
        _ => gen.call(Call::Open(above)),
    }
}

/// One good call of any kind.
pub fn good(gen: &mut Gen) {
    let closed = (0..4).find(|c| !gen.model.open[usize::from(*c)]);
    let conn = match closed {
        Some(conn) if gen.rng.chance(40) => return gen.call(Call::Open(conn)),
        Some(0) => return gen.call(Call::Open(0)),
        _ => opened(gen),
    };
    match gen.rng.below(8) {
        0 => gen.call(Call::Close(conn)),
        1 => {
            let time = gen.next_instant().map_or(gen.now(), |t| t.div_ceil(9));
            let now = gen.now();
            gen.tick_to(gen.rng.pick(&[now, now + 1, time]));
        }
        2 => gen.config(conn),
        3 => {
            let id = gen.model.ended.last().map_or(7, |ended| ended.id);
            gen.extended(conn, id);
        }
        4 => {
            let id = gen.some(Some(conn), &[State::Waiting, State::OnAir]);
            gen.abort(conn, id.map_or(NONE, |s| s.id));
        }
        5 => {
            let data = gen.rng.good_init();
            gen.send(conn, 0x0001, data);
        }
        _ => {
            let ask = gen.timed(conn, gen.ahead(3));
            gen.ask(conn, &ask);
        }
    }
}

/// Calls of every kind behind the last that is answered.
pub fn beyond(gen: &mut Gen) {
    for _ in 0..gen.rng.between(6, 16) {
        match gen.rng.below(5) {
            0 | 1 => refused(gen),
            2 => {
                let conn = opened(gen);
                sized(gen, conn, LARGEST_SIZE);
            }
            _ => good(gen),
        }
    }
}
