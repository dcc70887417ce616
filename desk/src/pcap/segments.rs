//! Reading captures: the TCP connections to port 5168, and the messages in them, in the order in which
//! they were whole.

use super::files::packets;
use super::wire::{NET, PORT, SERVERS};
use std::collections::BTreeMap;

pub struct Event {
    /// In ninths.
    pub at: u64,
    pub conn: u8,
    pub what: What,
}

pub enum What {
    /// Whether it was seen; else the connection was there before the capture.
    Open(bool),
    /// A whole message of the server; of one with a MessageSize above 4,088 the header.
    Request(Vec<u8>),
    /// A whole message of the splicer.
    Record(Vec<u8>),
    Closed,
}

/// A TCP segment.
struct Segment<'f> {
    at: u64,
    /// The server's address and port.
    server: (Vec<u8>, u16),
    from_server: bool,
    sequence: u32,
    flags: u8,
    data: &'f [u8],
}

fn half(bytes: &[u8], at: usize) -> Option<u16> {
    Some(u16::from_be_bytes([*bytes.get(at)?, *bytes.get(at + 1)?]))
}

/// The IP packet behind the link layer's head; VLAN tags are passed over.
fn network(link: u32, frame: &[u8]) -> Option<&[u8]> {
    let mut at = match link {
        12 | 101 | 228 | 229 => return Some(frame),
        0 | 108 => return frame.get(4..),
        1 => 12,
        113 => 14,
        276 => return frame.get(20..),
        _ => return None,
    };
    while matches!(half(frame, at)?, 0x8100 | 0x88A8) {
        at += 4;
    }
    frame.get(at + 2..)
}

/// The addresses and the TCP part of an IP packet.
fn transport(ip: &[u8]) -> Option<(&[u8], &[u8], &[u8])> {
    match ip.first()? >> 4 {
        4 if *ip.get(9)? == 6 && half(ip, 6)? & 0x1FFF == 0 => {
            let (head, length) = (usize::from(ip[0] & 15) * 4, half(ip, 2)?);
            // 0 where the card cuts the segments
            let whole = ip
                .get(..usize::from(length))
                .filter(|_| length > 0)
                .unwrap_or(ip);
            Some((ip.get(12..16)?, ip.get(16..20)?, whole.get(head..)?))
        }
        6 if *ip.get(6)? == 6 => {
            let whole = ip.get(..40 + usize::from(half(ip, 4)?)).unwrap_or(ip);
            Some((ip.get(8..24)?, ip.get(24..40)?, whole.get(40..)?))
        }
        _ => None,
    }
}

fn segment(link: u32, at: u64, frame: &[u8]) -> Option<Segment<'_>> {
    let (source, target, tcp) = transport(network(link, frame)?)?;
    let (from, to) = (half(tcp, 0)?, half(tcp, 2)?);
    let (server, from_server) = match (from, to) {
        (_, PORT) => ((source.to_vec(), from), true),
        (PORT, _) => ((target.to_vec(), to), false),
        _ => return None,
    };
    let sequence = tcp.get(4..8)?.try_into().ok()?;
    Some(Segment {
        at,
        server,
        from_server,
        sequence: u32::from_be_bytes(sequence),
        flags: *tcp.get(13)?,
        data: tcp.get(usize::from(*tcp.get(12)? >> 4) * 4..)?,
    })
}

/// One side of a connection: the next byte's number, what came before its turn, and what is not
/// yet a whole message.
#[derive(Default)]
struct Side {
    next: Option<u32>,
    early: BTreeMap<u32, Vec<u8>>,
    rest: Vec<u8>,
    over: bool,
}

impl Side {
    /// Takes a segment's data; gives the whole messages.
    fn take(&mut self, sequence: u32, data: &[u8]) -> Vec<Vec<u8>> {
        let next = match self.next {
            Some(next) => next,
            // seen from the middle on: from the first segment that begins with a message
            None if is_header(data) => sequence,
            None => return Vec::new(),
        };
        self.next = Some(next);
        // numbers relative to the next byte, so that a rollover is no jump
        let ahead = sequence.wrapping_sub(next) as i32;
        if ahead > 0 {
            self.early.insert(sequence, data.to_vec());
            return Vec::new();
        }
        let known = ahead.unsigned_abs() as usize;
        if let Some(new) = data.get(known..).filter(|new| !new.is_empty()) {
            self.rest.extend_from_slice(new);
            let next = next.wrapping_add(new.len() as u32);
            self.next = Some(next);
            let due = |of: &&u32| next.wrapping_sub(**of) as i32 >= 0;
            if let Some(of) = self.early.keys().find(due).copied() {
                let data = self.early.remove(&of).unwrap_or_default();
                let mut list = self.whole();
                list.extend(self.take(of, &data));
                return list;
            }
        }
        self.whole()
    }

    fn whole(&mut self) -> Vec<Vec<u8>> {
        let mut list = Vec::new();
        while let Some(size) = half(&self.rest, 2).filter(|_| self.rest.len() >= 8 && !self.over) {
            // behind a MessageSize above 4,088 no message begins
            self.over = size > 4_088;
            let length = if self.over { 8 } else { 8 + usize::from(size) };
            if self.rest.len() < length {
                break;
            }
            list.push(self.rest.drain(..length).collect());
        }
        list
    }
}

/// A known ID, a size that may be, and all ones in Result_Extension.
fn is_header(data: &[u8]) -> bool {
    let half = |at: usize| half(data, at);
    half(0).is_some_and(|id| id <= 0x11)
        && half(2).is_some_and(|size| size <= 4_088)
        && half(6) == Some(0xFFFF)
}

struct Link {
    conn: u8,
    sides: [Side; 2],
    /// When the server ended it.
    left: Option<u64>,
}

/// The connections, by the server's address and port.
#[derive(Default)]
struct Links {
    open: BTreeMap<(Vec<u8>, u16), Link>,
    events: Vec<Event>,
    /// Bytes that came behind a gap that nothing filled.
    lost: usize,
}

impl Links {
    /// The number of a new connection: that of a server's address of ours, else the lowest free.
    fn number(&self, address: &[u8]) -> Option<u8> {
        let free = |n: &u8| self.open.values().all(|link| link.conn != *n);
        let own = address
            .strip_prefix(&NET)
            .and_then(|last| last.first()?.checked_sub(SERVERS));
        own.filter(|n| *n < 4).filter(free).or((0..4).find(free))
    }

    fn say(&mut self, at: u64, conn: u8, what: What) {
        self.events.push(Event { at, conn, what });
    }

    fn close(&mut self, server: &(Vec<u8>, u16), at: u64) {
        if let Some(link) = self.open.remove(server) {
            let early = link.sides.iter().flat_map(|side| side.early.values());
            self.lost += early.map(Vec::len).sum::<usize>();
            self.say(at, link.conn, What::Closed);
        }
    }

    fn take(&mut self, segment: &Segment) {
        let begins = segment.flags & 2 != 0;
        // a server that takes its port again has left before
        if begins
            && segment.from_server
            && self
                .open
                .get(&segment.server)
                .is_some_and(|l| l.left.is_some())
        {
            self.close(&segment.server, segment.at);
        }
        if !self.open.contains_key(&segment.server) && !self.opened(segment, begins) {
            return;
        }
        let Some(link) = self.open.get_mut(&segment.server) else {
            return;
        };
        let (conn, side) = (link.conn, &mut link.sides[usize::from(segment.from_server)]);
        if begins {
            side.next = Some(segment.sequence.wrapping_add(1));
        }
        let first = segment.sequence.wrapping_add(u32::from(begins));
        for message in side.take(first, segment.data) {
            let what = match segment.from_server {
                true => What::Request(message),
                false => What::Record(message),
            };
            self.say(segment.at, conn, what);
        }
        self.ended(segment);
    }

    /// A connection begins, or is seen for the first time.
    fn opened(&mut self, segment: &Segment, begins: bool) -> bool {
        // a fifth connection is the driver's to turn away
        let Some(conn) = self.number(&segment.server.0) else {
            return false;
        };
        // what is left of one that is over, and an empty segment, begin nothing
        if !begins && (segment.data.is_empty() || segment.flags & 5 != 0) {
            return false;
        }
        let link = Link {
            conn,
            sides: Default::default(),
            left: None,
        };
        self.open.insert(segment.server.clone(), link);
        self.say(segment.at, conn, What::Open(begins));
        true
    }

    /// RST, or FIN of the splicer, end it; a server that has said its last may still be answered.
    fn ended(&mut self, segment: &Segment) {
        let (fin, reset) = (segment.flags & 1 != 0, segment.flags & 4 != 0);
        if reset || fin && !segment.from_server {
            self.close(&segment.server, segment.at);
        } else if let (true, Some(link)) = (fin, self.open.get_mut(&segment.server)) {
            link.left.get_or_insert(segment.at);
        }
    }
}

/// What a capture shows of connections to port 5168, and the bytes that could not be read for a gap.
pub fn heard(name: &str, bytes: &[u8]) -> Result<(Vec<Event>, usize), String> {
    let mut links = Links::default();
    let mut packets = packets(name, bytes)?;
    // several interfaces' packets may stand out of order
    packets.sort_by_key(|packet| packet.at);
    for packet in &packets {
        if let Some(segment) = segment(packet.link, packet.at, packet.bytes) {
            links.take(&segment);
        }
    }
    let left = links
        .open
        .iter()
        .filter_map(|(server, link)| Some((server.clone(), link.left?)));
    for (server, at) in left.collect::<Vec<_>>() {
        links.close(&server, at);
    }
    let early = links
        .open
        .values()
        .flat_map(|link| &link.sides)
        .flat_map(|side| side.early.values());
    let lost = links.lost + early.map(Vec::len).sum::<usize>();
    Ok((links.events, lost))
}
