//! The data of messages, drawn.

use crate::gen::rng::Rng;
use crate::rules::NONE;
use crate::streams::{self, Stream, Streams};

/// The last microsecond that a wire time can name.
pub const TOP: u64 = 0xFFFF_FFFF * 1_000_000 + 999_999;

/// A Splice_Request to be sent. The fields without effect are drawn when it is sent.
#[derive(Clone)]
pub struct Ask {
    pub id: u32,
    pub prior: u32,
    /// The wire time in microseconds.
    pub at: u64,
    pub duration: u32,
    pub access: u8,
    pub overrides: u8,
}

impl Rng {
    pub fn good_init(&self) -> Vec<u8> {
        let mut data = vec![0; 66];
        data[1] = 2;
        data[2..5].copy_from_slice(b"CH1");
        if self.chance(40) {
            let from = self.between(6, 33) as usize;
            data[from..34].fill(self.pick(&[1, 0x41, 0xFF]));
        }
        data[34..41].copy_from_slice(b"SPLICER");
        data.extend(self.hardware(self.pick(&[0, 0, 1, 7, 8, 8, 8, 14, 26, 253, 254])));
        for _ in 0..self.pick(&[0, 0, 1, 10, 30]) {
            data.push(self.next() as u8);
        }
        data
    }

    /// A Hardware_Config of this Length, its bytes drawn (02, CR 6).
    pub fn hardware(&self, length: u16) -> Vec<u8> {
        let mut bytes = length.to_be_bytes().to_vec();
        bytes.extend((0..length).map(|_| self.next() as u8));
        bytes
    }

    /// The data of a readable Splice_Request, at times with separate PIDs.
    pub fn splice_data(&self, ask: &Ask) -> Vec<u8> {
        let data = self.plain_data(ask);
        if self.chance(92) {
            return data;
        }
        let streams = self.streams(self.pick(&[0, 1, 1, 2, 2, 3, 7, 14, 15, 16]));
        separate(data, &streams)
    }

    /// The data of a readable Splice_Request with another ServiceID than 0xFFFF.
    pub fn plain_data(&self, ask: &Ask) -> Vec<u8> {
        let at = ask.at.min(TOP);
        let mut micros = (at % 1_000_000) as u32;
        if ask.prior != NONE && self.chance(20) {
            // A linked request's time is not read.
            micros = self.pick(&[1_000_000, 0xFFFF_FFFF]);
        }
        let mut data = Vec::new();
        for word in [ask.id, ask.prior, (at / 1_000_000) as u32, micros] {
            data.extend(word.to_be_bytes());
        }
        data.extend((self.pick(&[0, 1, 2, 0xFFFE]) as u16).to_be_bytes());
        for word in [ask.duration, self.pick(&[NONE, 0, self.next() as u32]), self.pick(&[0, 0, 90_000, NONE])] {
            data.extend(word.to_be_bytes());
        }
        data.extend([ask.access, ask.overrides, self.below(2) as u8]);
        for _ in 0..self.pick(&[0, 0, 0, 0, 1, 2, 3]) {
            data.extend(self.good_descriptor());
        }
        data
    }

    /// A muxpriority_descriptor, one that is almost one, or any other.
    pub fn good_descriptor(&self) -> Vec<u8> {
        let drawn = self.between(1, 10) as u8;
        let value = self.pick(&[1, 5, 10, drawn, drawn]);
        let any = self.next() as u8;
        let length = self.pick(&[4, 4, 5, 9, 254]);
        match self.below(12) {
            0..=4 => mux(value),
            5 => named(2, b"CUEI", &[any]),
            6 => named(2, b"IPAS", &[any]),
            7 => named(3, b"SAPI", &[any]),
            8 => named(2, b"SAPJ", &[]),
            _ => self.descriptor(length),
        }
    }

    /// A readable list of separate PIDs, short enough for any tail.
    pub fn streams(&self, count: usize) -> Streams {
        let pcr_pid = self.pick(&[0, 0x31, 0x1FFE, 0x1FFF, self.below(0x2000)]);
        let list = (0..count).map(|_| self.stream(count, pcr_pid)).collect();
        Streams { pcr_pid, list }
    }

    fn stream(&self, count: usize, pcr_pid: u64) -> Stream {
        let drawn = self.below(0x2000);
        let rates = [0xFFFF_FFFF, 0xFFFF_FFFE, 0xFFFF, 0, 4_000_000, self.below(1 << 32)];
        let sizes = [0xFFFF, 0xFFFE, 0, 720, 1_920];
        let kept = match count {
            0..=10 => self.pick(&[0, 0, 0, 1, 3, 234]),
            _ => self.pick(&[0, 0, 0, 1, 3]),
        };
        Stream {
            pid: self.pick(&[pcr_pid, 0x31, 0x32, 0x1FFF, drawn, drawn]),
            kind: self.pick(&[0x02, 0x1B, 0x81, 0, 0x8100, 0xFFFE]),
            average: self.pick(&rates),
            highest: self.pick(&rates),
            lowest: self.pick(&rates),
            width: self.pick(&sizes),
            height: self.pick(&sizes),
            kept: (0..kept).map(|_| self.next() as u8).collect(),
        }
    }

    pub fn descriptor(&self, length: u8) -> Vec<u8> {
        let mut bytes = vec![self.next() as u8, length];
        for _ in 0..length {
            bytes.push(self.next() as u8);
        }
        bytes
    }
}

/// A muxpriority_descriptor, good or not.
pub fn mux(value: u8) -> Vec<u8> {
    named(2, b"SAPI", &[value])
}

/// A descriptor of this tag, identifier and private bytes.
pub fn named(tag: u8, identifier: &[u8; 4], private: &[u8]) -> Vec<u8> {
    let length = 4 + private.len() as u8;
    [&[tag, length], &identifier[..], private].concat()
}

/// The data with ServiceID 0xFFFF and these PIDs behind it.
pub fn separate(data: Vec<u8>, streams: &Streams) -> Vec<u8> {
    between(data, &streams::write(streams).unwrap_or_default())
}

/// The data with ServiceID 0xFFFF and these bytes behind it.
pub fn between(mut data: Vec<u8>, bytes: &[u8]) -> Vec<u8> {
    let tail = data.split_off(18);
    data[16..].fill(0xFF);
    data.extend(bytes);
    data.extend(tail);
    data
}
