//! Damaged, cut, padded and unknown messages, each "Not readable" case of 01 on both sides of
//! its boundary, and the tails at which the card program stops.

use crate::gen::draw::{Gen, TOP};
use crate::people::card::Call;
use crate::rules::{State, NONE};

/// The data of an Init_Request that may be wrong in one way.
pub fn init(gen: &mut Gen) {
    let conn = maybe_uninitialised(gen);
    let mut data = gen.rng.good_init();
    match gen.rng.below(12) {
        0 => data.truncate(65),
        1 => data.truncate(66),
        2 => data[2..34].fill(0x43),
        3 => data[34..66].fill(0x43),
        4 => data[34..65].fill(0x43),
        5 => data[..2].copy_from_slice(&gen.rng.pick(&[[0, 0], [0, 1], [0, 3], [2, 0], [2, 2]])),
        6 => data[2] = gen.rng.pick(&[0, b'c', b'D']),
        7 => data[5] = b'1',
        8 => data[4] = 0,
        9 => data[2..33].fill(0x43),
        10 => data.truncate(gen.rng.below(66) as usize),
        _ => {
            // Two at once: the version is looked at first, the reading before it.
            data[1] = 3;
            data[2] = b'X';
        }
    }
    gen.send(conn, 0x0001, data);
}

/// An Init_Request whose Hardware_Config is on either side of a boundary, good or not by its revision and name
/// too, and GetConfig_Requests before and behind it, at times with data (02, CR 6).
pub fn config(gen: &mut Gen) {
    let conn = maybe_uninitialised(gen);
    if gen.rng.chance(40) {
        gen.config(conn);
    }
    let mut data = gen.rng.good_init();
    data.truncate(66);
    bad_hardware(gen, &mut data);
    gen.send(conn, 0x0001, data);
    asked(gen, conn);
}

/// A Hardware_Config at its edges, good or bad, behind the names; or another revision or name before a good one.
fn bad_hardware(gen: &mut Gen, data: &mut Vec<u8>) {
    match gen.rng.below(8) {
        0 => data.resize(gen.rng.pick(&[65, 66, 67, 67, 68]), 0),
        1 | 2 => {
            data.extend(gen.rng.hardware(gen.rng.pick(&[0, 7, 8, 253, 254, 254, 255, 255, 256, 257])));
        }
        3 => {
            // Length one more than follows, or two; or a byte behind it.
            data.extend(gen.rng.hardware(gen.rng.pick(&[0, 7, 8, 14, 253, 254])));
            match gen.rng.below(3) {
                0 => data.truncate(data.len() - 1),
                1 => data.truncate((data.len() - 2).max(67)),
                _ => data.push(7),
            }
        }
        4 => {
            // Far past the end, or far too long.
            let length: u16 = gen.rng.pick(&[0x0100, 0x0800, 0x8008, 0xFFFF, 200]);
            data.extend(length.to_be_bytes());
            data.extend([7; 8]);
        }
        kind => {
            data.extend(gen.rng.hardware(gen.rng.pick(&[0, 8, 14, 254])));
            match kind {
                5 => data[1] = 3,
                6 => data[2] = b'X',
                _ => {}
            }
        }
    }
}

/// GetConfig_Requests of this connection or another, at times with data.
pub fn asked(gen: &mut Gen, conn: u8) {
    if gen.rng.chance(80) {
        gen.config(conn);
    }
    if gen.rng.chance(25) {
        let other = gen.conn();
        gen.config(other);
    }
    if gen.rng.chance(20) {
        gen.send(conn, 0x000A, vec![0; gen.rng.pick(&[1, 1, 2, 8, 66])]);
    }
}

/// A connection; at times one that is open and not initialised.
pub fn maybe_uninitialised(gen: &mut Gen) -> u8 {
    let conn = gen.conn();
    if gen.rng.chance(15) {
        gen.call(Call::Close(conn));
        gen.call(Call::Open(conn));
    }
    conn
}

pub fn alive_and_abort(gen: &mut Gen) {
    let conn = maybe_uninitialised(gen);
    if gen.rng.chance(50) {
        gen.send(conn, 0x0005, vec![0; gen.rng.pick(&[0, 1, 7, 7, 8, 9, 9, 16])]);
    } else {
        let all = [State::Waiting, State::OnAir];
        let id = gen.some(Some(conn), &all).map_or(1, |s| s.id);
        let mut data = id.to_be_bytes().to_vec();
        data.resize(gen.rng.pick(&[0, 3, 3, 5, 5, 8]), 0);
        gen.send(conn, 0x000E, data);
    }
}

/// An ExtendedData_Request of a number whose end is kept, of another size or type (02, CR 8).
pub fn extended(gen: &mut Gen) {
    let conn = maybe_uninitialised(gen);
    let own = gen.model.ended.iter().rfind(|e| e.conn == conn);
    let id = own.map_or(1, |e| e.id);
    let other = gen.rng.next() as u32;
    let vendors = [0x8000_0000, 0x8000_0000, NONE - 1, NONE - 1];
    let reserved = [0, 1, 0x7FFF_FFFF, 0x00FF_FFFF];
    let kinds = [&vendors[..], &reserved[..], &[other]].concat();
    let (kind, size) = match gen.rng.below(5) {
        0 | 1 => (gen.rng.pick(&kinds), 8),
        2 | 3 => (NONE, gen.rng.pick(&[0, 4, 7, 7, 9, 9, 12])),
        _ => (NONE, 8),
    };
    let mut data = [id.to_be_bytes(), kind.to_be_bytes()].concat();
    data.resize(size, 0xFF);
    gen.send(conn, 0x0003, data);
}

/// IDs outside the list of four, before and after Init.
pub fn unknown(gen: &mut Gen) {
    let conn = gen.conn();
    if gen.rng.chance(40) {
        gen.call(Call::Close(conn));
        gen.call(Call::Open(conn));
    }
    let ids = [
        0x0000, 0x0000, 0x000D, 0x000D, 0x000D, 0x0002, 0x0003, 0x0004, 0x0006, 0x0008, 0x0009, 0x000A, 0x000B, 0x000C, 0x000F,
        0x0010, 0x0011, 0x0012, 0x0100, 0x0700, 0x7FFF, 0x8000, 0xFFFF,
    ];
    let id = gen.rng.pick(&ids);
    gen.send(conn, id, vec![0; gen.rng.pick(&[0, 0, 4, 8, 33, 66])]);
    if id == 0 && gen.rng.chance(50) {
        gen.alive(conn);
    }
}

/// Messages, opens and closes that are refused.
pub fn refused(gen: &mut Gen) {
    let above = gen.rng.pick(&[4, 5, 128, 255]);
    let conn = gen.rng.below(4) as u8;
    match gen.rng.below(8) {
        0 => gen.call(Call::Open(above)),
        1 => gen.call(Call::Close(above)),
        2 => gen.alive(above),
        3 => {
            gen.ready(conn);
            gen.call(Call::Open(conn));
        }
        4 => {
            let micros = gen.rng.pick(&[1_000_000, 1_000_001, NONE]);
            let seconds = gen.seconds() as u32;
            gen.call(Call::Tick(gen.rng.pick(&[seconds, 0, NONE]), micros));
        }
        5 => {
            let back = gen.rng.pick(&[1, 1, 1_000_000, 5_000_000]);
            let now = gen.now();
            gen.tick_to(now.saturating_sub(back));
        }
        6 => {
            gen.tick_to(gen.now());
        }
        _ => closed(gen, conn),
    }
}

/// Calls on a closed connection.
fn closed(gen: &mut Gen, conn: u8) {
    if gen.model.open[conn as usize] {
        gen.call(Call::Close(conn));
    }
    match gen.rng.below(3) {
        0 => gen.call(Call::Close(conn)),
        1 => gen.alive(conn),
        _ => {
            let data = gen.rng.good_init();
            gen.send(conn, 0x0001, data);
        }
    }
    gen.ready(conn);
}

/// MessageSize 4,088: 33 bytes, fifteen descriptors of 256 bytes and one of 215.
pub fn largest(gen: &mut Gen) {
    let conn = gen.conn();
    let ask = gen.timed(conn, gen.ahead(20));
    let mut data = gen.rng.plain_data(&ask);
    data.truncate(33);
    for _ in 0..15 {
        data.extend(gen.rng.descriptor(254));
    }
    data.extend(gen.rng.descriptor(213));
    match gen.rng.below(4) {
        0 => data[4_088 - 214] += 1,
        1 => {
            let mut init = gen.rng.good_init();
            init.resize(4_088, 7);
            gen.send(conn, 0x0001, init);
            return gen.config(conn);
        }
        _ => {}
    }
    gen.send(conn, 0x0007, data);
}

/// The end of a stream: nothing, a cut record, another mark or a large MessageSize, and calls behind it that must not be made.
pub fn tail(gen: &mut Gen) {
    let behind = [0x43, 0, 0x43, 1, 0x43, 2, 0x43, 3, 0x4F, 0];
    match gen.rng.below(10) {
        0..=2 => {}
        3 => {
            gen.bytes.push(gen.rng.pick(&[0x00, 0x45, 0x52, 0x6D, 0xFF]));
            gen.bytes.extend(behind);
        }
        4 => {
            gen.bytes.push(gen.rng.pick(&[0x4F, 0x43, 0x4D, 0x54]));
        }
        5 => {
            let time = (TOP / 1_000_000) as u32;
            let whole = [&[0x54, 0x00], &time.to_be_bytes()[..], &[0; 4]].concat();
            let length = gen.rng.between(2, 9) as usize;
            gen.bytes.extend(&whole[..length]);
        }
        6 | 7 => {
            let whole = [0x4D, 0, 0, 5, 0, 8, 0, 0, 0, 0, 0, 0, 0, 0, 0, 0, 0, 0];
            let length = gen.rng.between(2, 17) as usize;
            gen.bytes.extend(&whole[..length]);
        }
        _ => {
            let conn = gen.rng.pick(&[0, 1, 2, 3, 0, 1, 4, 255]);
            if conn < 4 && gen.model.open[conn as usize] && gen.rng.chance(30) {
                gen.call(Call::Close(conn));
            }
            let size: u16 = gen.rng.pick(&[4_089, 4_089, 4_096, 0xFFFF]);
            gen.bytes.extend([0x4D, conn, 0, 1]);
            gen.bytes.extend(size.to_be_bytes());
            gen.bytes.extend([0xFF; 4]);
            gen.bytes.extend(behind);
        }
    }
}
