//! One stream of many entries through both: ticks of a frame, and between them connections, sessions, cues and sections, over and over.

use crate::archive::Archive;
use model::gen::draw::Rng;
use model::gen::whole_drivers::{rng_of, section};
use model::people::card::channel_name;
use model::people::scenario::message;
use model::referee::{Card, Kind, Marks, Player, Referee};

/// 40 milliseconds.
const FRAME: u64 = 40_000;

/// The stream as it goes on: its own splicer, the time in microseconds, and the number of the next session.
struct Live {
    player: Player,
    rng: Rng,
    marks: Marks,
    card: Card,
    time: u64,
    next: u32,
}

impl Live {
    fn new(seed: u64, marks: Marks) -> Live {
        let rng = rng_of(seed ^ 0xE0, 0);
        let rolling = marks == Marks::Further && rng.chance(50);
        let card = if rolling { Card::Rolling } else { Card::Utc };
        Live { player: Player::fresh(&channel_name()), rng, marks, card, time: 1_000_000_000, next: 1 }
    }

    /// The next entries that are no record.
    fn entries(&mut self) -> Vec<Vec<u8>> {
        match self.rng.below(400) {
            0 => vec![vec![0x4F, self.rng.below(5) as u8]],
            1 => vec![vec![0x43, self.rng.below(8) as u8]],
            2..=5 => vec![self.init()],
            6..=11 => vec![self.splice()],
            12 => vec![self.sent(message(0x0005, vec![0; 8]))],
            13 => vec![self.sent(message(0x000A, Vec::new()))],
            14 if self.marks == Marks::Further => vec![section(&mut self.rng)],
            _ => vec![self.tick()],
        }
    }

    fn sent(&mut self, message: Vec<u8>) -> Vec<u8> {
        [vec![0x4D, self.rng.below(4) as u8], message].concat()
    }

    fn init(&mut self) -> Vec<u8> {
        let mut data = vec![0; 68];
        (data[1], data[34]) = (2, b'S');
        data[2..5].copy_from_slice(b"CH1");
        self.sent(message(0x0001, data))
    }

    fn splice(&mut self) -> Vec<u8> {
        let start = self.time + 3_000_000 + self.rng.below(4_000_000);
        let mut data = self.next.to_be_bytes().to_vec();
        data.extend([0xFF; 4]);
        data.extend(((start / 1_000_000) as u32).to_be_bytes());
        data.extend(((start % 1_000_000) as u32).to_be_bytes());
        data.extend([0, 1]);
        data.extend((self.rng.between(1, 900_000) as u32).to_be_bytes());
        data.extend([0; 8]);
        data.extend([self.rng.below(10) as u8, self.rng.below(2) as u8, 1]);
        self.next = self.next.wrapping_add(1) % 60;
        self.sent(message(0x0007, data))
    }

    /// A frame later; of a rolling card the instant, then 3,600 ticks more.
    fn tick(&mut self) -> Vec<u8> {
        let (seconds, micros) = ((self.time / 1_000_000) as u32, (self.time % 1_000_000) as u32);
        let reading = (self.time / FRAME).wrapping_mul(3_600) as u32;
        self.time += FRAME;
        match (self.card, self.player.card) {
            (Card::Utc, _) => [&[0x54, 0][..], &seconds.to_be_bytes(), &micros.to_be_bytes()].concat(),
            (_, None) => [&[0x49, 0][..], &seconds.to_be_bytes(), &micros.to_be_bytes(), &reading.to_be_bytes()].concat(),
            _ => [&[0x57, 0][..], &reading.to_be_bytes()].concat(),
        }
    }
}

/// Every piece is answered alike; at the end a record too many is told alike.
pub fn stream(seed: u64, entries: u64, marks: Marks) -> bool {
    let (mut live, mut made, mut bytes) = (Live::new(seed, marks), 0, 0);
    let ((mut archive, _), mut own) = (Archive::fresh(&channel_name()), Referee::fresh(&channel_name(), marks));
    while made < entries {
        let mut piece = Vec::new();
        for _ in 0..live.rng.between(1, 3_000) {
            for entry in live.entries() {
                let records = live.player.make(&entry);
                made += 1 + model::people::make_recording::entries(&records).0.len() as u64;
                piece.extend(entry);
                piece.extend(records);
            }
        }
        bytes += piece.len();
        let at = live.rng.below(piece.len() as u64) as usize;
        for part in [&piece[..at], &piece[at..]] {
            archive.feed(part);
            own.feed(part);
            if archive.end() != own.end() {
                println!(
                    "refereed: behind {made} entries the archive says {:?}, the second program {:?}",
                    archive.end(),
                    own.end()
                );
                return false;
            }
        }
    }
    let good = own.end().kind == Kind::InOrder;
    archive.feed(&[0x45, 7]);
    own.feed(&[0x45, 7]);
    let alike = archive.end() == own.end() && own.end().kind == Kind::Call;
    println!(
        "refereed: one stream of {made} entries, {bytes} bytes, {} calls, {} differ",
        own.number,
        usize::from(!(good && alike))
    );
    good && alike
}
