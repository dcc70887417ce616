//! 02, CR 11: `moved` is the number of places that an acceptance shifts. The waiting places before and
//! after it are laid side by side, and the sessions whose place changed are counted.

use splicer::{message_id, name, records, result, Handled, Splicer, ENDED, OUT, WORDS};

/// Where the waiting places stand in the words (`include/splicer.h`), and their fields.
const FIRST: usize = 13;
const PLACES: usize = 64;
const WIDTH: usize = 8;
const START: usize = 3;
const RING_END: usize = 3;

const TIMED: u32 = 0xFFFF_FFFF;
const SECOND: u32 = 90_000;

type Place = [u64; WIDTH];
const FREE: Place = [0; WIDTH];

fn words(channel: &Splicer) -> [u64; WORDS] {
    // SAFETY: a Splicer begins with its words (repr(C)), and any words may be read.
    unsafe { *std::ptr::from_ref(channel).cast() }
}

fn places(channel: &Splicer) -> Vec<Place> {
    let words = words(channel);
    let waiting = words[FIRST..][..PLACES * WIDTH].chunks(WIDTH);
    waiting.map(|place| place.try_into().unwrap()).collect()
}

/// The sessions that stand in both, and in another place.
fn shifted(before: &[Place], after: &[Place]) -> usize {
    let stood = before.iter().enumerate().filter(|(_, p)| **p != FREE);
    let moved = stood.filter(|(at, p)| after[*at] != **p && after.contains(p));
    moved.count()
}

/// What a Splice_Request says.
#[derive(Clone, Copy)]
struct Asked {
    id: u32,
    prior: u32,
    seconds: u32,
    duration: u32,
    access: u8,
}

/// A timed one with AccessType 1, for a second.
fn at(id: u32, seconds: u32) -> Asked {
    Asked {
        id,
        prior: TIMED,
        seconds,
        duration: SECOND,
        access: 1,
    }
}

fn message(id: u16, data: &[u8]) -> Vec<u8> {
    let size = data.len() as u16;
    let header = [id.to_be_bytes(), size.to_be_bytes(), [0xFF; 2], [0xFF; 2]];
    [header.as_flattened(), data].concat()
}

fn splice(asked: Asked) -> Vec<u8> {
    let first = [asked.id, asked.prior, asked.seconds, 0];
    let rest = [asked.duration, 0xFFFF_FFFF, 0];
    let first = first.map(u32::to_be_bytes);
    let rest = rest.map(u32::to_be_bytes);
    let flags = [asked.access, 1, 1];
    let data = [first.as_flattened(), &[0, 1], rest.as_flattened(), &flags].concat();
    message(message_id::SPLICE_REQUEST, &data)
}

fn abort(id: u32) -> Vec<u8> {
    message(message_id::ABORT_REQUEST, &id.to_be_bytes())
}

/// At 1,000 s, all four connections initialised.
fn ready() -> Splicer {
    let mut out = [0; OUT];
    let (mut channel, _) = Splicer::fresh(&name(b"CH1"));
    for connection in 0..4 {
        channel.open(connection).unwrap();
        let data = [&[0, 2], &name(b"CH1")[..], &name(b"SERVER"), &[0, 0]].concat();
        let init = message(message_id::INIT_REQUEST, &data);
        channel.message(connection, &init, &mut out).unwrap();
    }
    channel.tick(1000, 0, &mut out).unwrap();
    channel
}

/// What a request did.
#[derive(Default)]
struct Done {
    accepted: bool,
    evicted: usize,
    moved: usize,
}

/// Makes the request and holds the number to the places.
fn asks(channel: &mut Splicer, connection: u32, asked: Asked) -> Done {
    let mut out = [0; OUT];
    let mut before = channel.clone();
    let handled = channel.message(connection, &splice(asked), &mut out);
    let Handled { written, moved, .. } = handled.unwrap();
    let list: Vec<_> = records(written).collect();
    let (answer, gone) = list.split_last().unwrap();
    if answer.result != result::SUCCESSFUL {
        assert_eq!(moved, 0, "not accepted");
        assert_eq!(*channel, before, "nothing changed");
        return Done::default();
    }
    // An abort of the evicted one takes it and its followers out, as the eviction did.
    if let Some(evicted) = gone.first() {
        let id = u32::from_be_bytes(evicted.data.try_into().unwrap());
        let mut log = [0; OUT];
        let aborted = before.message(evicted.connection.into(), &abort(id), &mut log);
        assert_eq!(aborted.unwrap().moved, 0, "an abort");
    }
    held(&before, channel, moved as usize);
    Done {
        accepted: true,
        evicted: gone.len(),
        moved: moved as usize,
    }
}

/// The places after the eviction and after the acceptance.
fn held(before: &Splicer, after: &Splicer, moved: usize) {
    let (old, new) = (places(before), places(after));
    assert_eq!(shifted(&old, &new), moved, "sessions whose place changed");
    let differ = old.iter().zip(&new).filter(|(a, b)| a != b).count();
    assert_eq!(differ, moved + 1, "places that hold something else");
    let added = new.iter().find(|place| !old.contains(place)).unwrap();
    let later = old.iter().filter(|place| place[START] > added[START]);
    assert_eq!(later.count(), moved, "those that start later");
    let end = (words(before)[RING_END] + 1) % PLACES as u64;
    assert_eq!(words(after)[RING_END], end, "the ring goes one on");
}

/// 63 that wait, every other second from 1,010 s on.
fn with_63(mut channel: Splicer) -> Splicer {
    let list = [9, 20, 20, 14].into_iter().zip(0..);
    let mut seconds = 1010;
    for (many, connection) in list {
        for id in 0..many {
            let done = asks(&mut channel, connection, at(id, seconds));
            assert!(done.accepted && done.moved == 0, "behind all others");
            seconds += 2;
        }
    }
    assert_eq!(channel.waiting(), [9, 20, 20, 14]);
    channel
}

#[test]
fn the_first_shifts_none() {
    let mut channel = ready();
    let done = asks(&mut channel, 0, at(1, 1010));
    assert!(done.accepted && done.moved == 0);
}

#[test]
fn in_front_in_the_middle_and_behind_63() {
    let full = with_63(ready());
    // The first waits for 1,010 s, the last for 1,134 s.
    for (seconds, moved) in [(1005, 63), (1011, 62), (1073, 31), (1133, 1), (1135, 0)] {
        let done = asks(&mut full.clone(), 0, at(50, seconds));
        assert!(done.accepted && done.moved == moved, "{seconds}");
    }
}

#[test]
fn wherever_the_ring_stands() {
    let mut channel = ready();
    let mut out = [0; OUT];
    for end in 0..2 * PLACES as u64 {
        assert_eq!(words(&channel)[RING_END], end % 64);
        let mut full = with_63(channel.clone());
        let done = asks(&mut full, 0, at(50, 1005));
        assert_eq!(done.moved, 63);
        // An acceptance and an abort: the same is shown, and the ring stands one on.
        let shown = channel.clone();
        asks(&mut channel, 0, at(1, 1010));
        channel.message(0, &abort(1), &mut out).unwrap();
        assert_ne!(channel, shown);
        assert_eq!(channel.waiting(), shown.waiting());
    }
    // 128 acceptances: twice round; what ended lately alone differs (02, CR 8)
    assert_eq!(words(&channel)[..ENDED], words(&ready())[..ENDED]);
}

#[test]
fn an_eviction_goes_before_the_count() {
    let mut channel = ready();
    let follower = |id, prior| Asked { prior, ..at(id, 0) };
    // 1, 2 and 3 of connection 1 one behind the other from 1,010 s, 4 of connection 0 between them.
    for (connection, asked) in [
        (1, at(1, 1010)),
        (1, follower(2, 1)),
        (1, follower(3, 2)),
        (2, at(4, 1013)),
        (0, at(5, 1005)),
    ] {
        assert!(asks(&mut channel, connection, asked).accepted);
    }
    let strong = Asked {
        access: 2,
        ..at(6, 1010)
    };
    let done = asks(&mut channel, 3, strong);
    assert_eq!((done.evicted, done.moved), (3, 1), "only 4 starts later");
    assert_eq!(channel.waiting(), [1, 0, 1, 1]);
}

/// Few numbers and starts, so that starts meet, chains grow and queues fill.
struct Draw(u64);

impl Draw {
    fn below(&mut self, n: u32) -> u32 {
        self.0 ^= self.0 << 13;
        self.0 ^= self.0 >> 7;
        self.0 ^= self.0 << 17;
        ((self.0 >> 16) % u64::from(n)) as u32
    }

    fn asked(&mut self, now: u32) -> Asked {
        let linked = self.below(2) == 0;
        Asked {
            id: self.below(40),
            prior: if linked { self.below(40) } else { TIMED },
            seconds: now + 3 + self.below(90),
            duration: SECOND * (1 + self.below(4)) / 2,
            access: self.below(10) as u8,
        }
    }
}

#[test]
fn random_calls() {
    let mut draw = Draw(0x9E37_79B9_7F4A_7C15);
    let (mut channel, mut now) = (ready(), 1000);
    let mut out = [0; OUT];
    let (mut accepted, mut shifting, mut evicting, mut round) = (0, 0, 0, 0);
    for _ in 0..40_000 {
        let connection = draw.below(4);
        match draw.below(100) {
            0..=3 => {
                now += draw.below(6);
                channel.tick(now, 0, &mut out).unwrap();
            }
            4..=6 => {
                let id = draw.below(40);
                let done = channel.message(connection, &abort(id), &mut out);
                assert_eq!(done.unwrap().moved, 0, "an abort");
            }
            _ => {
                let asked = draw.asked(now);
                let done = asks(&mut channel, connection, asked);
                accepted += usize::from(done.accepted);
                shifting += usize::from(done.moved > 0);
                evicting += usize::from(done.evicted > 0 && done.moved > 0);
                let list = places(&channel);
                round += usize::from(list[0] != FREE && list[63] != FREE);
            }
        }
    }
    let found = [accepted, shifting, evicting, round];
    let floors = [4_000, 3_000, 500, 500];
    assert!(
        found.iter().zip(floors).all(|(n, least)| *n >= least),
        "{found:?}"
    );
}
