//! A seeded mutator: changed inputs from good ones. The same seed and number give the same input.

/// Values at which readers tend to err, and the marks of calls and records.
const ODD: [u8; 18] = [
    0, 1, 2, 3, 7, 8, 9, 0x0F, 0x10, 0x7F, 0x80, 0xF8, 0xFF, 0x43, 0x4D, 0x4F, 0x52, 0x54,
];

pub struct Mutator {
    state: u64,
}

impl Mutator {
    pub fn of(seed: u64, number: u64) -> Mutator {
        let state =
            seed.wrapping_mul(0x9E37_79B9_7F4A_7C15) ^ number.wrapping_mul(0xD1B5_4A32_D192_ED03);
        let mut made = Mutator { state };
        made.next();
        made
    }

    /// splitmix64
    pub fn next(&mut self) -> u64 {
        self.state = self.state.wrapping_add(0x9E37_79B9_7F4A_7C15);
        let z = (self.state ^ self.state >> 30).wrapping_mul(0xBF58_476D_1CE4_E5B9);
        let z = (z ^ z >> 27).wrapping_mul(0x94D0_49BB_1331_11EB);
        z ^ z >> 31
    }

    pub fn below(&mut self, n: usize) -> usize {
        (self.next() % n.max(1) as u64) as usize
    }

    /// One of these, changed in one to six places.
    pub fn mutated(&mut self, from: &[Vec<u8>]) -> Vec<u8> {
        let own = self.below(from.len());
        let mut bytes = from[own].clone();
        for _ in 0..=self.below(6) {
            let other = self.below(from.len());
            self.change(&mut bytes, &from[other]);
        }
        bytes
    }

    fn change(&mut self, bytes: &mut Vec<u8>, other: &[u8]) {
        let at = self.below(bytes.len());
        let (from, to) = self.part(bytes.len());
        match self.below(10) {
            _ if bytes.is_empty() => bytes.push(self.next() as u8),
            0 | 1 => bytes[at] ^= 1 << self.below(8),
            2 | 3 => bytes[at] = ODD[self.below(ODD.len())],
            4 => bytes[at] = self.next() as u8,
            5 => {
                bytes.drain(from..to);
            }
            6 => {
                let again = bytes[from..to].to_vec();
                bytes.splice(at..at, again);
            }
            7 => {
                let (from, to) = self.part(other.len());
                bytes.splice(at..at, other[from..to].to_vec());
            }
            8 => bytes.truncate(at),
            _ => {
                let value = [0, 0xFF, 0x80][self.below(3)];
                bytes[from..to].fill(value);
            }
        }
    }

    /// A part of a list, mostly short.
    fn part(&mut self, length: usize) -> (usize, usize) {
        let from = self.below(length);
        let most = [1, 4, 16, 400][self.below(4)];
        (from, (from + 1 + self.below(most)).min(length).max(from))
    }
}
