//! Boundaries of "Not readable": what a message just keeps, and what it fails by.

use rules::bytes::{half, word};
use rules::descriptors::{first, Found, SAPI};
use rules::right::READING;
use rules::streams::{Stream, Streams, LARGEST_PID, MOST_KEPT};

/// Why a message is not readable, with what the data tells beside.
pub fn in_full(why: &'static str, data: &[u8]) -> &'static str {
    match why {
        "123 Init Hardware_Config over 256 bytes" if half(data, 66) == 255 => "123 Init Length 255",
        "123 Init Hardware_Config over 256 bytes" => "123 Init Length above 255",
        "123 Init Hardware_Config past the end" if 68 + usize::from(half(data, 66)) == data.len() + 1 => {
            "123 Init Hardware_Config a byte past the end"
        }
        "123 ExtendedData of another type" => match word(data, 4) {
            0xFFFF_FFFE => "123 ExtendedData type 0xFFFFFFFE",
            0x8000_0000.. => "123 ExtendedData type of a vendor",
            _ => "123 ExtendedData type reserved",
        },
        _ => why,
    }
}

/// What an unreadable Splice_Request has behind good parts, for the branch table.
pub fn failed_boundaries(data: &[u8]) -> Vec<&'static str> {
    let Ok(tail) = READING.tail(data) else {
        return Vec::new();
    };
    let mut list = failed_descriptors(&tail.bytes[15..]);
    if tail.streams.is_some() {
        if !list.is_empty() {
            list.push("123 Splice muxpriority behind separate PIDs");
        }
        list.push("123 Splice by its tail, behind separate PIDs");
    }
    if !list.is_empty() && word(data, 4) != 0xFFFF_FFFF {
        list.push("123 Splice by its tail, linked");
    }
    list
}

/// The boundaries of "Not readable" that a readable message just keeps, for the branch table.
pub fn kept_boundaries(id: u16, data: &[u8]) -> Vec<&'static str> {
    let mut list = match id {
        0x0001 => kept_hardware(data),
        _ => Vec::new(),
    };
    match (id, data.len()) {
        (0x0001, _) if data[33] == 0 && data[2..33].iter().all(|b| *b != 0) => {
            list.push("read Init ChannelName with a last zero");
        }
        (0x0001, _) if data[65] == 0 && data[34..65].iter().all(|b| *b != 0) => {
            list.push("read Init SplicerName with a last zero");
        }
        (0x0007, _) => {
            if let Ok(tail) = READING.tail(data) {
                list.extend(kept_by_tail(tail.bytes, tail.streams.is_some()));
                list.extend(kept_by_start(data));
                let found = kept_descriptors(&tail.bytes[15..]);
                let some = !found.contains(&"read Splice without a muxpriority");
                if some && tail.streams.is_some() {
                    list.push("read Splice muxpriority behind separate PIDs");
                }
                list.extend(found);
                let streams = tail.streams.iter();
                list.extend(streams.flat_map(kept_streams));
            }
        }
        _ => {}
    }
    list
}

fn kept_by_tail(tail: &[u8], separate: bool) -> Vec<&'static str> {
    let mut list = Vec::new();
    match (tail.len(), separate) {
        (15, false) => list.push("read Splice of 33 bytes"),
        (15, true) => list.push("read Splice with separate PIDs and nothing behind the tail"),
        (_, true) => list.push("read Splice with separate PIDs and descriptors"),
        (_, false) => list.push("read Splice with descriptors"),
    }
    match tail.get(16) {
        Some(4) => list.push("read Splice descriptor length 4"),
        Some(254) => list.push("read Splice descriptor length 254"),
        _ => {}
    }
    if tail[12] == 9 {
        list.push("read Splice AccessType 9");
    }
    if tail[13] == 1 && tail[14] == 1 {
        list.push("read Splice with both flags 1");
    }
    list
}

fn kept_by_start(data: &[u8]) -> Vec<&'static str> {
    let mut list = Vec::new();
    match (word(data, 4), word(data, 12)) {
        (0xFFFF_FFFF, 999_999) => list.push("read Splice timed MicroSeconds 999,999"),
        (0xFFFF_FFFF, _) => {}
        (_, 1_000_000..) => list.push("read Splice linked MicroSeconds above 999,999"),
        _ => {}
    }
    list
}

/// The boundaries of a readable Hardware_Config, for the branch table.
fn kept_hardware(data: &[u8]) -> Vec<&'static str> {
    let mut list = Vec::new();
    let Ok(kept) = READING.hardware(data) else {
        return list;
    };
    if data.len() == 68 {
        list.push("read Init of 68 bytes");
    } else if data.len() == 66 + kept.len() {
        list.push("read Init Hardware_Config to the message's end");
    } else {
        list.push("read Init with bytes behind Hardware_Config");
    }
    list.extend(match kept.len() - 2 {
        0 => Some("read Init Length 0"),
        1..=7 => Some("read Init Length 1 to 7"),
        8 => Some("read Init Length 8"),
        253 => Some("read Init Length 253"),
        254 => Some("read Init Length 254"),
        _ => None,
    });
    list
}

/// Of each muxpriority_descriptor in these bytes, as far as their form goes, whether it is good.
pub fn judged(bytes: &[u8]) -> Vec<bool> {
    let mut list = Vec::new();
    let mut rest = bytes;
    while let Ok((tag, body, behind)) = READING.formed(rest) {
        if tag == 2 && body.starts_with(&SAPI) {
            list.push(READING.mux_value(body).is_ok());
        }
        rest = behind;
    }
    list
}

/// What good descriptors have in them, for the branch table.
fn kept_descriptors(bytes: &[u8]) -> Vec<&'static str> {
    let mut hits = Vec::new();
    let (mut values, mut last) = (Vec::new(), Found::Foreign);
    let mut rest = bytes;
    while let Ok((tag, body, behind)) = READING.formed(rest) {
        if let Ok(Some((found, _))) = first(&READING, rest) {
            last = found;
            values.extend(match found {
                Found::Mux(value) => Some(value),
                Found::Foreign => None,
            });
        }
        hits.extend(match (tag, &body[..4]) {
            (2, b"CUEI") => Some("read Splice tag 0x02 under another identifier"),
            (2, b"IPAS") => Some("read Splice tag 0x02 under SAPI turned round"),
            (3, b"SAPI") => Some("read Splice tag 0x03 under SAPI"),
            _ => None,
        });
        rest = behind;
    }
    hits.push(match values.len() {
        0 => "read Splice without a muxpriority",
        1 => "read Splice with one muxpriority",
        _ => "read Splice with several muxpriorities",
    });
    if values.first() != values.last() {
        hits.push("read Splice first and last muxpriority differ");
    }
    hits.extend(values.last().and_then(|value| match value {
        1 => Some("read Splice muxpriority 1"),
        5 => Some("read Splice muxpriority 5"),
        10 => Some("read Splice muxpriority 10"),
        _ => None,
    }));
    if last != Found::Foreign {
        hits.push("read Splice muxpriority as the last bytes");
    }
    hits
}

/// What descriptors that made a request unreadable have in them, for the branch table.
fn failed_descriptors(bytes: &[u8]) -> Vec<&'static str> {
    let list = judged(bytes);
    let mut hits = Vec::new();
    if list.contains(&false) {
        hits.push("123 Splice muxpriority bad");
    }
    if list.windows(2).any(|two| two == [false, true]) {
        hits.push("123 Splice muxpriority bad before a good one");
    }
    if list.windows(2).any(|two| two == [true, false]) {
        hits.push("123 Splice muxpriority bad behind a good one");
    }
    let value = [2, 5, SAPI[0], SAPI[1], SAPI[2], SAPI[3]];
    if bytes.ends_with(&value) && judged(&[bytes, &[1]].concat()).len() > list.len() {
        hits.push("123 Splice muxpriority cut in its value");
    }
    hits
}

/// The boundaries that a readable list just keeps, for the branch table.
fn kept_streams(streams: &Streams) -> Vec<&'static str> {
    let list = &streams.list;
    let mut hits = vec![match list.len() {
        0 => "read Splice with no structure",
        1 => "read Splice with one structure",
        2 => "read Splice with two structures",
        15 => "read Splice with 15 structures",
        16 => "read Splice with 16 structures",
        _ => "read Splice with 3 to 14 structures",
    }];
    if streams.pcr_pid == LARGEST_PID {
        hits.push("read Splice PcrPID 0x1FFF");
    }
    let twice = |s: &Stream| list.iter().filter(|t| t.pid == s.pid).count() > 1;
    if list.iter().any(twice) {
        hits.push("read Splice with a PID twice");
    }
    if list.iter().any(|s| s.pid == streams.pcr_pid) {
        hits.push("read Splice with a PID that is PcrPID");
    }
    hits.extend(list.iter().flat_map(kept_by_one));
    hits
}

fn kept_by_one(s: &Stream) -> Vec<&'static str> {
    let rates = [s.average, s.highest, s.lowest];
    let rows = [
        ("read Splice PID 0x1FFF", s.pid == LARGEST_PID),
        ("read Splice StreamType 0xFFFE", s.kind == 0xFFFE),
        ("read Splice rate 0xFFFFFFFF", rates.contains(&0xFFFF_FFFF)),
        ("read Splice rate 0x0000FFFF", rates.contains(&0xFFFF)),
        ("read Splice resolution 0xFFFF", [s.width, s.height].contains(&0xFFFF)),
        ("read Splice structure of Length 21", s.kept.is_empty()),
        ("read Splice structure of Length 22", s.kept.len() == 1),
        ("read Splice structure of Length 255", s.kept.len() == MOST_KEPT),
    ];
    let hit = rows.iter().filter(|(_, hit)| *hit);
    hit.map(|(name, _)| *name).collect()
}
