//! `desk pcap`: a recording as a capture for Wireshark, and a capture as a recording. A connection of
//! the splicer is a TCP connection to port 5168; a packet's time is the clock.

mod calls;
mod files;
mod plain;
mod segments;
mod wire;

use crate::day::behind;
use crate::recording::{items, Call, Item, Recording};
use crate::ruled::Held;
use crate::time::{MICRO, SECOND};
use segments::{heard, Event, What};
use wire::{Flow, Writer};

/// A recording as a capture. Payloads are cut into pieces of this many bytes. Records of a close are
/// logged and not sent, and a refusal is not sent, so they are not in it.
pub fn capture(recording: &Recording, pieces: usize) -> Vec<u8> {
    let mut to = Writer::new(pieces);
    let mut flows: [Option<Flow>; 4] = [None; 4];
    for (number, entry) in recording.entries().enumerate() {
        let found = items(entry.found, 0);
        if let Some(clock) = behind(recording, number, entry.found) {
            let micros = clock % SECOND / MICRO;
            to.clock = ((clock / SECOND) as u32, micros as u32);
        }
        let good = !found.iter().any(|item| item.bytes[0] == 0x45);
        let flow = |conn: u8| flows.get(usize::from(conn)).copied().flatten();
        match entry.call() {
            Some(Call::Open(conn)) if good && conn < 4 => {
                flows[usize::from(conn)] = Some(to.open(conn));
            }
            Some(Call::Message(conn, bytes)) => {
                if let Some(mut own) = flow(conn) {
                    to.data(&mut own, true, bytes);
                    flows[usize::from(conn)] = Some(own);
                }
            }
            Some(Call::Close(conn)) if good => {
                if let Some(own) = flow(conn) {
                    to.close(own);
                    flows[usize::from(conn)] = None;
                }
                continue;
            }
            _ => {}
        }
        sent(&mut to, &mut flows, &found);
    }
    to.bytes
}

/// The records of a call, each to its connection; those that follow each other go in one piece.
fn sent(to: &mut Writer, flows: &mut [Option<Flow>; 4], records: &[Item]) {
    let records: Vec<&Item> = records.iter().filter(|i| i.bytes[0] == 0x52).collect();
    for run in records.chunk_by(|a, b| a.bytes[1] == b.bytes[1]) {
        if let Some(Some(flow)) = flows.get_mut(usize::from(run[0].bytes[1])) {
            let bytes: Vec<u8> = run.iter().flat_map(|i| i.bytes[2..].to_vec()).collect();
            to.data(flow, false, &bytes);
        }
    }
}

/// Connections of any bytes, for the tests of the dissector.
#[cfg(test)]
pub struct Connections(Writer);

#[cfg(test)]
impl Default for Connections {
    fn default() -> Connections {
        Connections(Writer::new(1_460))
    }
}

#[cfg(test)]
impl Connections {
    /// A connection in which both sides speak by turns, in pieces of so many bytes.
    pub fn add(&mut self, asks: &[u8], says: &[u8], pieces: usize) {
        let mut flow = self.0.open(0);
        let (mut asks, mut says) = (asks.chunks(pieces), says.chunks(pieces));
        loop {
            let (ask, say) = (asks.next(), says.next());
            if ask.or(say).is_none() {
                return self.0.close(flow);
            }
            for (from_server, part) in [(true, ask), (false, say)] {
                self.0.data(&mut flow, from_server, part.unwrap_or(&[]));
            }
        }
    }

    pub fn bytes(&self) -> &[u8] {
        &self.0.bytes
    }
}

/// A capture as a recording.
pub struct Back {
    pub recording: Recording,
    /// Connections were there before the capture began.
    pub middle: bool,
    /// Parts of it are missing: it cannot be held to the rules.
    pub gaps: bool,
    /// What a capture cannot tell.
    pub notes: Vec<String>,
}

/// A capture as a recording, for a channel of this name. What is not sent, the records of a close and
/// refusals, is what the rules give.
pub fn recorded(file: &str, bytes: &[u8], name: &[u8; 32]) -> Result<Back, String> {
    let (events, lost) = heard(file, bytes)?;
    let before = match lost {
        0 => unknown(&events),
        _ => events.len(),
    };
    let ahead = calls::clocks(&events).into_iter().min().unwrap_or(0);
    let mut bytes = plain::bytes(&events[..before], ahead);
    if before < events.len() {
        bytes.extend(led(&events[before..], name));
    }
    if bytes.is_empty() {
        return Err(format!("{file}: no connection to TCP port 5168 in it"));
    }
    let recording = Recording::read(file, bytes)?;
    let middle = before > 0;
    let notes = notes(&events, lost, middle);
    Ok(Back {
        recording,
        middle,
        gaps: lost > 0,
        notes,
    })
}

/// How many events lie before the first at which every connection is closed that was there before.
fn unknown(events: &[Event]) -> usize {
    let mut open = [false; 4];
    let there = |event: &Event| matches!(event.what, What::Open(false));
    let Some(last) = events.iter().rposition(there) else {
        return 0;
    };
    for (place, event) in events.iter().enumerate() {
        if place > last && open == [false; 4] {
            return place;
        }
        match event.what {
            What::Open(_) => open[usize::from(event.conn)] = true,
            What::Closed => open[usize::from(event.conn)] = false,
            _ => {}
        }
    }
    events.len()
}

/// The calls that explain it, as near to the packets' times as may be.
fn led(events: &[Event], name: &[u8; 32]) -> Vec<u8> {
    let back = calls::Back::of(events, name);
    let [plain, dated] = [false, true].map(|dated| calls::joined(&back.made, name, dated));
    let broken = |bytes: &Vec<u8>| match Recording::read("it", bytes.clone()) {
        Ok(recording) => Held::of(recording, name, false).broken.len(),
        Err(_) => usize::MAX,
    };
    if broken(&dated) <= broken(&plain) {
        return dated;
    }
    plain
}

fn notes(events: &[Event], lost: usize, middle: bool) -> Vec<String> {
    let mut list = vec![
        "a capture has no ticks and no cue calls: ticks are set where the records need them, and a cue's PTS is not known".to_string(),
    ];
    let clocks = calls::clocks(events);
    if let (Some(least), Some(most)) = (clocks.iter().min(), clocks.iter().max()) {
        let seconds = |ninths: &i64| *ninths as f64 / SECOND as f64;
        let (least, most) = (seconds(least), seconds(most));
        list.push(format!("Alive_Responses are {least:+.6} to {most:+.6} s from their packets' times, which is not judged"));
    }
    if lost > 0 {
        list.push(format!(
            "{lost} bytes stand behind a gap and are not read: it is not held to the rules"
        ));
    } else if middle {
        let unknown = "until all are closed what waits and is on air is not known, and nothing is held to the rules";
        list.push(format!(
            "a connection was there before the capture: {unknown}"
        ));
    }
    list
}

#[cfg(test)]
mod tests {
    use super::wire::Writer;
    use super::*;

    const CH1: [u8; 32] = {
        let mut name = [0; 32];
        (name[0], name[1], name[2]) = (b'C', b'H', b'1');
        name
    };

    /// Calls other than ticks, and all records.
    fn shown(recording: &Recording) -> (Vec<Vec<u8>>, Vec<Vec<u8>>) {
        let (mut calls, mut records) = (Vec::new(), Vec::new());
        for entry in recording.entries() {
            let refused = entry.found.first() == Some(&0x45);
            if !refused && !matches!(entry.call(), None | Some(Call::Tick(..))) {
                calls.push(entry.bytes.to_vec());
            }
            let found = items(entry.found, 0);
            let own = found.iter().filter(|item| item.bytes[0] == 0x52);
            records.extend(own.map(|item| item.bytes.to_vec()));
        }
        (calls, records)
    }

    fn back(bytes: &[u8]) -> Held {
        let back = recorded("it", bytes, &CH1).unwrap();
        Held::of(back.recording, &CH1, back.middle)
    }

    /// To a capture and back, in segments of any size.
    #[test]
    fn there_and_back() {
        let day = include_bytes!("../recordings/example-day.rec");
        let recording = Recording::read("it", day.to_vec()).unwrap();
        for pieces in [1, 7, 100, 1_460] {
            let held = back(&capture(&recording, pieces));
            assert!(shown(&held.recording) == shown(&recording), "{pieces}");
            assert_eq!(held.broken, [0; 0], "{pieces}");
        }
    }

    /// A splicer's answers come a little later than the requests.
    #[test]
    fn answers_that_come_later() {
        let mut to = Writer::new(1_460);
        let mut flow = to.open(0);
        let head = |id: u8, size: u8, result: u8| vec![0, id, 0, size, 0, result, 255, 255];
        let name = [&b"CH1"[..], &[0; 29]].concat();
        let init = [&head(1, 68, 255)[..], &[0, 2], &name, &name, &[0, 0]].concat();
        to.clock = (1_000, 0);
        to.data(&mut flow, true, &init);
        to.clock = (1_000, 40_000);
        to.data(
            &mut flow,
            false,
            &[&head(2, 34, 100)[..], &[0, 2], &name].concat(),
        );
        to.clock = (1_001, 0);
        to.data(
            &mut flow,
            true,
            &[&head(14, 4, 255)[..], &[0, 0, 0, 9]].concat(),
        );
        to.clock = (1_001, 900_000);
        to.data(
            &mut flow,
            false,
            &[&head(15, 4, 121)[..], &[0, 0, 0, 9]].concat(),
        );
        let held = back(&to.bytes);
        assert_eq!(held.broken, [0; 0]);
        assert_eq!(shown(&held.recording).1.len(), 2);
    }

    /// An exchange at one second each: Init, Alive and a Splice_Request for 1,010 s are answered; at
    /// the last second GetConfig is. No start is shown.
    fn never_started(last: u32) -> Vec<u8> {
        let mut to = Writer::new(1_460);
        let mut flow = to.open(0);
        let head = |id: u8, size: u8, result: u16| {
            [&[0, id, 0, size][..], &result.to_be_bytes(), &[255; 2]].concat()
        };
        let (asks, says) = (u16::MAX, 100);
        let name = [&b"CH1"[..], &[0; 29]].concat();
        let config = [0, 8, 0, 1, 0, 2, 0, 3, 0, 4];
        let splice = [
            &[0, 0, 0, 7][..],
            &[255; 4],
            &1_010u32.to_be_bytes(),
            &[0; 4],
            &[0, 1],
        ]
        .concat();
        let splice = [&splice[..], &90_000u32.to_be_bytes(), &[0; 8], &[3, 0, 0]].concat();
        let alive = [
            &[0, 0, 0, 1][..],
            &[255; 4],
            &1_001u32.to_be_bytes(),
            &[0; 4],
        ]
        .concat();
        let turns = [
            (
                1_000,
                head(1, 76, asks),
                [&[0, 2][..], &name, &name, &config].concat(),
            ),
            (1_000, head(2, 34, says), [&[0, 2][..], &name].concat()),
            (1_001, head(5, 8, asks), vec![0; 8]),
            (1_001, head(6, 16, says), alive),
            (1_002, head(7, 33, asks), splice),
            (1_002, head(8, 4, says), vec![0, 0, 0, 7]),
            (last, head(10, 0, asks), Vec::new()),
            (last, head(11, 42, says), [&name[..], &config].concat()),
        ];
        for (place, (second, head, data)) in turns.into_iter().enumerate() {
            to.clock = (second, 0);
            to.data(&mut flow, place % 2 == 0, &[head, data].concat());
        }
        to.bytes
    }

    /// 90 s behind its instant a start is missing; before that the splicer may not have ticked.
    #[test]
    fn a_start_that_never_comes() {
        assert_eq!(back(&never_started(1_090)).broken, [0; 0]);
        let held = back(&never_started(1_102));
        // due at 1,010 s, and its end a second later
        assert_eq!(held.broken.len(), 2);
        let due: Vec<&[u8]> = held.broken.iter().map(|call| held.due(*call)).collect();
        assert!(due
            .iter()
            .all(|due| due[2..4] == [0, 9] && due[10..14] == [0, 0, 0, 7]));
    }

    #[test]
    fn captures_that_are_none() {
        let wrong = |bytes: &[u8]| recorded("it", bytes, &CH1).err().unwrap();
        assert_eq!(wrong(b""), "it: empty: no capture");
        assert_eq!(
            wrong(b"garbage, and long enough"),
            "it: byte 0: no capture (pcap or pcapng)"
        );
        let ng = [0x0A, 0x0D, 0x0D, 0x0A, 28, 0, 0, 0, 1, 2, 3, 4];
        assert_eq!(wrong(&ng), "it: byte 8: no section of pcapng");
        let none = Writer::new(9).bytes;
        assert_eq!(wrong(&none), "it: no connection to TCP port 5168 in it");
        let day = include_bytes!("../recordings/example-day.rec");
        let whole = capture(&Recording::read("it", day.to_vec()).unwrap(), 1_460);
        assert!(
            recorded("it", &whole[..whole.len() - 3], &CH1).is_ok(),
            "a cut last packet"
        );
        for place in 0..400 {
            let mut bad = whole.clone();
            bad[place * 29 % 4_000] ^= 1 << (place % 8);
            let _ = recorded("it", &bad, &CH1);
        }
    }
}
