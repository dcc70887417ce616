//! Lists of separate PIDs (02, CR 1), read and written by both programs: the bytes taken, every field
//! and kept byte, the bytes written, and what is lent and must stay as it was.

use model::gen::draw::{Gen, Rng};
use model::hold::faults::{rules_of, Fault};
use model::streams::{self, Stream, Streams};
use splicer::{KEPT, STREAMS, STREAM_WORDS};

/// How many lists a run draws, and how many of them must be good at least.
const LISTS: u64 = 20_000;
const GOOD: u64 = 4_000;

/// The faults in reading a list: it must give them away.
pub const FAULTS: [Fault; 7] = [
    Fault::NextStructureTooFar,
    Fault::Length20Taken,
    Fault::PidCountUnchecked,
    Fault::PcrPidUnchecked,
    Fault::PidUnchecked,
    Fault::StreamTypeUnchecked,
    Fault::UnknownRateRefused,
];

/// How many lists were good, read and written; or the first difference.
type Alike = Result<(u64, u64), String>;

/// Draws lists, damages most of them, and compares; true if all were alike.
pub fn run(seed: u64) -> bool {
    match compared(seed, None) {
        Ok((read, written)) => {
            println!("beside: {LISTS} lists of PIDs read ({read} good) and {LISTS} written ({written} good), all alike");
            read >= GOOD && written >= GOOD
        }
        Err(text) => {
            println!("seed {seed}, {text}");
            false
        }
    }
}

/// Shows that a fault in the second program's reading is noticed.
pub fn noticed(seed: u64, fault: Fault) -> bool {
    let found = compared(seed, Some(fault)).err();
    match &found {
        Some(text) => {
            let place = text.split(':').next().unwrap_or(text);
            println!("noticed in {place}: {}: {}", fault.name(), fault.text());
        }
        None => println!("NOT NOTICED in lists: {}: {}", fault.name(), fault.text()),
    }
    found.is_some()
}

fn compared(seed: u64, fault: Option<Fault>) -> Alike {
    let mut gen = Gen::new(Rng::new(seed ^ 0x5049_4473));
    let (mut read, mut written) = (0, 0);
    for index in 0..LISTS {
        let told = |text: String| format!("list {index}: {text}");
        let bytes = bytes(&mut gen);
        let list = list(&mut gen);
        let spare = gen.rng.pick(&[-20, -1, 0, 0, 1, 30]);
        read += u64::from(same_read(&bytes, fault).map_err(told)?);
        written += u64::from(same_written(&list, spare).map_err(told)?);
    }
    Ok((read, written))
}

/// The bytes of a list and some behind it, mostly damaged.
fn bytes(gen: &mut Gen) -> Vec<u8> {
    let count = gen.rng.pick(&[0, 1, 1, 2, 3, 15, 16]);
    let list = gen.rng.streams(count);
    let mut bytes = streams::write(&list).unwrap_or_default();
    if count == 16 && gen.rng.chance(20) {
        bytes[5] = 17;
        bytes.extend([21, 0, 1, 0, 2]);
        bytes.extend([0; 16]);
    }
    for _ in 0..gen.rng.pick(&[0, 0, 1, 15, 40]) {
        bytes.push(gen.rng.next() as u8);
    }
    let place = gen.rng.below(bytes.len() as u64) as usize;
    match gen.rng.below(10) {
        0 => bytes.truncate(place),
        1 => drop(bytes.remove(place)),
        2 => bytes.insert(place, gen.rng.next() as u8),
        3 => bytes[place] = gen.rng.pick(&[0, 1, 20, 21, 22, 0x1F, 0x20, 254, 255]),
        4 => bytes[place % 6] = gen.rng.pick(&[0, 1, 2, 16, 17, 0x1F, 0x20, 255]),
        5 => bytes.truncate(gen.rng.pick(&[0, 5, 6, 7, 27, 28])),
        6 if count > 0 => bytes[9..11].fill(gen.rng.pick(&[0xFE, 0xFF])),
        7 if count > 0 => bytes[6] = gen.rng.pick(&[20, 21, 22]),
        _ => {}
    }
    bytes
}

/// A list to be written, often with a number that does not fit its field or one stream too many.
fn list(gen: &mut Gen) -> Streams {
    let count = gen.rng.pick(&[0, 1, 2, 3, 15, 16]);
    let mut streams = gen.rng.streams(count);
    if gen.rng.chance(5) {
        streams.list = vec![gen.rng.streams(1).list.remove(0); 17];
    }
    if gen.rng.chance(10) {
        streams.pcr_pid = gen.rng.pick(&[0x1FFF, 0x2000, 1 << 16, 1 << 63]);
    }
    let half = gen.rng.pick(&[0xFFFE, 0xFFFF, 1 << 16, 1 << 32]);
    let word = gen.rng.pick(&[0xFFFF, 0xFFFF_FFFF, 1 << 32, 1 << 63]);
    let length = gen.rng.pick(&[0, 1, 234, 235]);
    let place = gen.rng.below(count.max(1) as u64) as usize;
    let Some(stream) = streams.list.get_mut(place) else {
        return streams;
    };
    match gen.rng.below(16) {
        0 => stream.pid = gen.rng.pick(&[0x1FFF, 0x2000, 1 << 16]),
        1 => stream.kind = half,
        2 => stream.average = word,
        3 => stream.highest = word,
        4 => stream.lowest = word,
        5 => stream.width = half,
        6 => stream.height = half,
        7 => stream.kept = vec![7; length],
        _ => {}
    }
    streams
}

/// `struct splicer_streams` of the header, with numbers that the wrapper's own fields cannot hold.
#[repr(C)]
struct Words {
    count: u64,
    pcr_pid: u64,
    row: [u64; STREAMS * STREAM_WORDS],
    kept: [u8; KEPT],
}

/// The list as the core takes it, 16 rows of it at most.
fn handed(streams: &Streams) -> splicer::Streams {
    let mut words =
        Words { count: streams.list.len() as u64, pcr_pid: streams.pcr_pid, row: [0; STREAMS * STREAM_WORDS], kept: [0; KEPT] };
    let mut at = 0;
    let rows = words.row.chunks_exact_mut(STREAM_WORDS);
    for (row, s) in rows.zip(&streams.list) {
        row.copy_from_slice(&[s.pid, s.kind, s.average, s.highest, s.lowest, s.width, s.height, s.kept.len() as u64]);
        let length = s.kept.len().min(KEPT - at);
        words.kept[at..at + length].copy_from_slice(&s.kept[..length]);
        at += length;
    }
    // SAFETY: both are the header's struct, whose size and places the wrapper asserts; numbers only.
    unsafe { std::mem::transmute::<Words, splicer::Streams>(words) }
}

/// The fields of a stream that the core read.
fn taken(s: splicer::Stream) -> Stream {
    Stream {
        pid: s.pid.into(),
        kind: s.stream_type.into(),
        average: s.avg_bitrate.into(),
        highest: s.max_bitrate.into(),
        lowest: s.min_bitrate.into(),
        width: s.h_resolution.into(),
        height: s.v_resolution.into(),
        kept: s.kept.to_vec(),
    }
}

/// Both read these bytes alike; what was read is written back as it was. True if it was a good list.
fn same_read(bytes: &[u8], fault: Option<Fault>) -> Result<bool, String> {
    let wanted = rules_of(fault).reading.streams(bytes).ok();
    let found = splicer::Streams::read(bytes);
    let (Some((list, length)), Some((core, consumed))) = (&wanted, &found) else {
        return match wanted.is_some() == found.is_some() {
            true => Ok(false),
            false => Err(format!("read by one only: {}", model::people::record_lines::hex(bytes))),
        };
    };
    let fields = Streams { pcr_pid: core.pcr_pid().into(), list: core.iter().map(taken).collect() };
    if length != consumed || fields != *list {
        return Err(format!("core {consumed} {fields:?}, second program {length} {list:?}"));
    }
    // All words: the rows behind the last are zero, the kept bytes behind the last stay.
    if *core != handed(list) {
        return Err("other words behind the last stream".to_string());
    }
    let mut out = vec![0; *length];
    match core.write(&mut out) {
        Some(written) if *written == bytes[..*length] => Ok(true),
        _ => Err(format!("not written back: {}", model::people::record_lines::hex(bytes))),
    }
}

/// Both write this list alike, into a room of this many bytes more than it needs; all else stays. True if something was written.
fn same_written(list: &Streams, spare: isize) -> Result<bool, String> {
    let wanted = streams::write(list);
    let need = wanted.as_ref().map_or(400, Vec::len);
    let room = need.saturating_add_signed(spare);
    let wanted = wanted.filter(|bytes| bytes.len() <= room);
    let mut lent = vec![0xEE; room + 50];
    let found = handed(list).write(&mut lent[..room]).map(<[u8]>::to_vec);
    if found != wanted {
        return Err(format!("core {found:?}, second program {wanted:?} for {list:?}"));
    }
    let length = wanted.as_ref().map_or(0, Vec::len);
    let stays = lent[length..].iter().all(|byte| *byte == 0xEE);
    match stays && lent[..length] == *wanted.unwrap_or_default() {
        true => Ok(length > 0),
        false => Err(format!("other bytes changed for {list:?}")),
    }
}
