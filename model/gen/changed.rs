//! Logs of an engine that only remembers (02, CR 12), changed and made up, of every length. "any 65,536 bytes are a list of calls".

use crate::gen::draw::Rng;
use crate::people::recall::{LEAST_FREE, LOG, MOST};
use crate::rules::LARGEST_SIZE;

/// What a log is made with: random numbers, and the records of some kept calls, at least one.
pub struct Desk<'d> {
    pub rng: &'d mut Rng,
    pub kept: Vec<Vec<u8>>,
}

pub type Kind = fn(&mut Desk) -> Vec<u8>;

/// Each kind of log and how it is made.
pub const KINDS: &[(&str, Kind)] = &[
    ("as it was kept", as_kept),
    ("bytes behind the zero", bytes_behind),
    ("calls behind the zero", calls_behind),
    ("another byte in the zero's place", other_end),
    ("a byte changed", byte_changed),
    ("a call dropped", dropped),
    ("a call doubled", doubled),
    ("calls exchanged", exchanged),
    ("calls turned round", turned),
    ("another connection", connection_changed),
    ("another MessageSize", size_changed),
    ("a tick's second byte", tick_byte),
    ("an oversize header between", oversize),
    ("another mark between", other_mark),
    ("entries of drawn bytes", entries),
    ("drawn bytes", drawn),
    ("drawn marks", drawn_marks),
    ("zeros", zeros),
    ("no mark at all", no_mark),
    ("254 kept", |desk| counted(desk, 254)),
    ("255 kept", |desk| counted(desk, 255)),
    ("256 kept", |desk| counted(desk, 256)),
    ("257 kept", |desk| counted(desk, 257)),
    ("hundreds kept", |desk| counted(desk, 700)),
    ("32,768 kept", |_| [0x4F, 0].repeat(LOG / 2)),
    ("255 kept, refused ones among them", |desk| with_refused(desk, 255)),
    ("256 kept, refused ones among them", |desk| with_refused(desk, 256)),
    ("4,096 free", |desk| with_free(desk, 4_096)),
    ("4,097 free", |desk| with_free(desk, 4_097)),
    ("4,098 free", |desk| with_free(desk, 4_098)),
    ("4,099 free", |desk| with_free(desk, 4_099)),
    ("4,100 free", |desk| with_free(desk, 4_100)),
    ("255 kept and 4,098 free", most_of_both),
    ("0 free", |desk| with_free(desk, 0)),
    ("a cut record at the end", cut),
    ("length 0", |desk| of_length(desk, 0)),
    ("length 1", |desk| of_length(desk, 1)),
    ("length 4,098", |desk| of_length(desk, 4_098)),
    ("length 65,535", |desk| of_length(desk, LOG - 1)),
    ("length 65,537", |desk| of_length(desk, LOG + 1)),
    ("length 131,072", |desk| of_length(desk, 2 * LOG)),
];

/// Bytes at the front of a log of zeros.
fn in_front(bytes: &[u8]) -> Vec<u8> {
    let mut log = bytes.to_vec();
    log.resize(LOG, 0);
    log
}

fn as_kept(desk: &mut Desk) -> Vec<u8> {
    in_front(&desk.kept.concat())
}

/// Bytes, and drawn ones behind them if there is room.
fn with_drawn(rng: &mut Rng, bytes: &[u8]) -> Vec<u8> {
    let mut log = bytes.to_vec();
    let few = rng.chance(50);
    while log.len() < LOG {
        let mark = rng.pick(&[0x4F, 0x43, 0x54, 0x4D, 0, 1]);
        let any = rng.next() as u8;
        log.push(if few { mark } else { any });
    }
    log.truncate(LOG);
    log
}

fn bytes_behind(desk: &mut Desk) -> Vec<u8> {
    let bytes = [desk.kept.concat(), vec![0]].concat();
    with_drawn(desk.rng, &bytes)
}

/// What would be calls if the zero were not there.
fn calls_behind(desk: &mut Desk) -> Vec<u8> {
    let list = [vec![0x4F, 0], vec![0x4F, 3], vec![0x43, 1], desk.rng.pick(&desk.kept)];
    let mut log = [desk.kept.concat(), vec![0]].concat();
    while log.len() + 4_100 < LOG {
        log.extend(desk.rng.pick(&list));
    }
    in_front(&log)
}

/// A byte that begins no call.
fn unknown(rng: &mut Rng) -> u8 {
    loop {
        let byte = rng.pick(&[0x45, 0x52, 0x42, 0x44, 0x4E, 0x50, 0x53, 0x55, 0xFF, rng.next() as u8]);
        if ![0, 0x4F, 0x43, 0x4D, 0x54].contains(&byte) {
            return byte;
        }
    }
}

fn other_end(desk: &mut Desk) -> Vec<u8> {
    let bytes = [desk.kept.concat(), vec![unknown(desk.rng)]].concat();
    match desk.rng.chance(50) {
        true => with_drawn(desk.rng, &bytes),
        false => in_front(&bytes),
    }
}

/// Any record.
fn place(desk: &mut Desk) -> usize {
    desk.rng.below(desk.kept.len() as u64) as usize
}

fn byte_changed(desk: &mut Desk) -> Vec<u8> {
    let at = place(desk);
    let byte = desk.rng.below(desk.kept[at].len().min(40) as u64) as usize;
    desk.kept[at][byte] ^= desk.rng.between(1, 255) as u8;
    as_kept(desk)
}

fn dropped(desk: &mut Desk) -> Vec<u8> {
    let at = place(desk);
    desk.kept.remove(at);
    as_kept(desk)
}

fn doubled(desk: &mut Desk) -> Vec<u8> {
    let at = place(desk);
    desk.kept.insert(at, desk.kept[at].clone());
    as_kept(desk)
}

fn exchanged(desk: &mut Desk) -> Vec<u8> {
    let (one, other) = (place(desk), place(desk));
    desk.kept.swap(one, other);
    as_kept(desk)
}

fn turned(desk: &mut Desk) -> Vec<u8> {
    desk.kept.reverse();
    as_kept(desk)
}

fn connection_changed(desk: &mut Desk) -> Vec<u8> {
    for _ in 0..desk.rng.between(1, 4) {
        let at = place(desk);
        desk.kept[at][1] = desk.rng.pick(&[0, 1, 2, 3, 4, 9, 255]);
    }
    as_kept(desk)
}

/// A record that fits, drawn from those that are left.
fn some_record(desk: &mut Desk, fits: impl Fn(&[u8]) -> bool) -> Option<usize> {
    let all = 0..desk.kept.len();
    let list: Vec<usize> = all.filter(|at| fits(&desk.kept[*at])).collect();
    (!list.is_empty()).then(|| desk.rng.pick(&list))
}

fn size_changed(desk: &mut Desk) -> Vec<u8> {
    if let Some(at) = some_record(desk, |record| record[0] == 0x4D) {
        let own = u16::from_be_bytes([desk.kept[at][4], desk.kept[at][5]]);
        let sizes = [own.wrapping_sub(1), own + 1, 0, 8, 33, 4_088, 4_089, 0xFFFF];
        let size = desk.rng.pick(&sizes);
        desk.kept[at][4..6].copy_from_slice(&size.to_be_bytes());
    }
    as_kept(desk)
}

/// "the 0x00 isn't read"
fn tick_byte(desk: &mut Desk) -> Vec<u8> {
    if let Some(at) = some_record(desk, |record| record[0] == 0x54) {
        desk.kept[at][1] = desk.rng.pick(&[1, 0x54, 0xFF]);
    }
    as_kept(desk)
}

/// A header with MessageSize above 4,088, and calls behind it that are not in the list.
fn oversize(desk: &mut Desk) -> Vec<u8> {
    let at = desk.rng.below(desk.kept.len() as u64 + 1) as usize;
    let size: u16 = desk.rng.pick(&[4_089, 4_090, 0x8000, 0xFFFF]);
    let [high, low] = size.to_be_bytes();
    let header = vec![0x4D, desk.rng.pick(&[0, 1, 2, 3, 9]), 0, 1, high, low, 0xFF, 0xFF, 0xFF, 0xFF];
    desk.kept.insert(at, header);
    as_kept(desk)
}

fn other_mark(desk: &mut Desk) -> Vec<u8> {
    let at = desk.rng.below(desk.kept.len() as u64 + 1) as usize;
    let byte = unknown(desk.rng);
    let mark = desk.rng.pick(&[0, byte]);
    desk.kept.insert(at, vec![mark]);
    as_kept(desk)
}

/// Calls of drawn fields, most of them refused.
fn entries(desk: &mut Desk) -> Vec<u8> {
    let mut bytes = Vec::new();
    for _ in 0..desk.rng.below(255) {
        let mark = desk.rng.pick(&[0x4F, 0x4F, 0x43, 0x54, 0x4D, 0x4D]);
        bytes.extend([mark, desk.rng.below(5) as u8]);
        match mark {
            0x54 => {
                bytes.extend([0, 0, 0, desk.rng.below(9) as u8, 0, desk.rng.below(20) as u8, 0, 0]);
            }
            0x4D => {
                let size = desk.rng.pick(&[0, 0, 4, 8, 33, 68]);
                bytes.extend([0, desk.rng.below(16) as u8, 0, size, 0, 0, 0, 0]);
                bytes.extend((0..size).map(|_| desk.rng.below(3) as u8));
            }
            _ => {}
        }
    }
    in_front(&bytes)
}

fn drawn(desk: &mut Desk) -> Vec<u8> {
    (0..LOG).map(|_| desk.rng.next() as u8).collect()
}

/// Drawn from few bytes, so that there are calls at the front, then drawn ones.
fn drawn_marks(desk: &mut Desk) -> Vec<u8> {
    let list = [0x4F, 0x4F, 0x43, 0x54, 0x4D, 0, 0, 1, 2, 3];
    let count = desk.rng.between(1, 600);
    let bytes: Vec<u8> = (0..count).map(|_| desk.rng.pick(&list)).collect();
    with_drawn(desk.rng, &bytes)
}

fn zeros(_: &mut Desk) -> Vec<u8> {
    vec![0; LOG]
}

fn no_mark(desk: &mut Desk) -> Vec<u8> {
    let byte = unknown(desk.rng);
    vec![byte; LOG]
}

/// Some kept calls, and ticks to time 0 or later until there are so many; behind them zeros or drawn bytes.
fn counted(desk: &mut Desk, count: usize) -> Vec<u8> {
    shorten(desk);
    let last = |record: &&Vec<u8>| record[0] == 0x54;
    let tick = desk.kept.iter().rev().find(last).cloned();
    let tick = tick.unwrap_or(vec![0x54, 0, 0, 0, 0, 0, 0, 0, 0, 0]);
    desk.kept.resize(count, tick);
    match desk.rng.chance(60) {
        true => as_kept(desk),
        false => bytes_behind(desk),
    }
}

/// The same with calls among them that the rules refuse.
fn with_refused(desk: &mut Desk, count: usize) -> Vec<u8> {
    counted(desk, count);
    for _ in 0..desk.rng.between(1, 20) {
        let at = place(desk);
        desk.kept[at] = vec![0x4F, desk.rng.pick(&[4, 9, 255])];
    }
    as_kept(desk)
}

/// Some kept calls, and messages on connection 3 until so many bytes are free; behind them zeros or drawn bytes.
fn with_free(desk: &mut Desk, free: usize) -> Vec<u8> {
    shorten(desk);
    fill(desk, free);
    match desk.rng.chance(60) {
        true => as_kept(desk),
        false => bytes_behind(desk),
    }
}

fn message_of(record: usize) -> Vec<u8> {
    let size = (record - 10) as u16;
    let [high, low] = size.to_be_bytes();
    let mut bytes = vec![0x4D, 3, 0, 0x0D, high, low, 0xFF, 0xFF, 0xFF, 0xFF];
    bytes.resize(record, 0);
    bytes
}

/// At most 30 records, and not half of the log.
fn shorten(desk: &mut Desk) {
    desk.kept.truncate(30);
    while desk.kept.concat().len() > LOG / 2 {
        desk.kept.pop();
    }
}

/// Messages behind the kept ones, which take not more than half of the log.
fn fill(desk: &mut Desk, free: usize) {
    let mut left = LOG - free - desk.kept.concat().len();
    while left > 0 {
        let record = match left {
            0..=4_098 => left,
            // a record has 10 bytes or more
            4_099..=4_107 => 4_000,
            _ => 10 + LARGEST_SIZE,
        };
        desk.kept.push(message_of(record));
        left -= record;
    }
}

/// 255 kept, and 4,098 bytes free.
fn most_of_both(desk: &mut Desk) -> Vec<u8> {
    shorten(desk);
    fill(desk, LEAST_FREE + 300 * 10);
    let more = MOST - 1 - desk.kept.len();
    let left = LOG - LEAST_FREE - desk.kept.concat().len();
    desk.kept.extend(vec![message_of(10); more - 1]);
    desk.kept.push(message_of(left - 10 * (more - 1)));
    as_kept(desk)
}

/// A list to the log's last bytes, with a record at its end that has no room.
fn cut(desk: &mut Desk) -> Vec<u8> {
    let left = desk.rng.between(1, 4_000) as usize;
    shorten(desk);
    fill(desk, left);
    let mut log = desk.kept.concat();
    log.extend(message_of(10 + LARGEST_SIZE));
    log.truncate(LOG);
    log
}

/// A log of another length: what was kept, or zeros.
fn of_length(desk: &mut Desk, length: usize) -> Vec<u8> {
    let mut log = desk.kept.concat();
    if desk.rng.chance(30) {
        log.clear();
    }
    log.resize(length, 0);
    log
}
