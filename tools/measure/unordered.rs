//! An engine in place for the rules of document 01 with 02's CR 1, 4, 5, 6 (sections empty), 8 and 13, written from the documents alone, as
//! a yardstick: plain Rust, and the waiting sessions in an array without order. A new one goes behind the last, one that goes is replaced
//! by the last, and each question about them is a scan, one by one.
#![no_std]

use core::mem::{size_of, MaybeUninit};
use core::slice;

const CONNECTIONS: usize = 4;
/// The bytes of a Hardware_Config with its Length (02, CR 6).
const HARDWARE: usize = 256;
/// The ended sessions that are kept (02, CR 8).
const ENDED: usize = 16;
const WAITING: usize = 64;
/// The places that each connection is sure of, and those it can have.
const SURE: u8 = 10;
const MOST: u8 = 20;
/// A session covers another one only with a higher AccessType, and there are ten of them.
const STARTED: usize = 10;
const ROOM: usize = 4096;
const HEADER: usize = 8;
const LARGEST: usize = 4088;

/// "None" as a SessionID or PriorSession.
const NONE: u32 = u32::MAX;

// Instants and durations are in ninths of a microsecond, and all below 2^56.
const SECOND: u64 = 9_000_000;
const MICROSECOND: u64 = 9;
const TICK: u64 = 100;
const NEVER: u64 = u64::MAX;

const GENERAL_RESPONSE: u16 = 0x0000;
const INIT_REQUEST: u16 = 0x0001;
const INIT_RESPONSE: u16 = 0x0002;
const EXTENDED_REQUEST: u16 = 0x0003;
const EXTENDED_RESPONSE: u16 = 0x0004;
const ALIVE_REQUEST: u16 = 0x0005;
const ALIVE_RESPONSE: u16 = 0x0006;
const SPLICE_REQUEST: u16 = 0x0007;
const SPLICE_RESPONSE: u16 = 0x0008;
const SPLICE_COMPLETE: u16 = 0x0009;
const CONFIG_REQUEST: u16 = 0x000A;
const CONFIG_RESPONSE: u16 = 0x000B;
const CUE_RESPONSE: u16 = 0x000D;
const ABORT_REQUEST: u16 = 0x000E;
const ABORT_RESPONSE: u16 = 0x000F;

const REVISION: u16 = 2;

#[derive(Clone, Copy, PartialEq)]
#[repr(u8)]
enum Line {
    Closed,
    Open,
    Initialised,
}

/// What a waiting session needs only when it starts or is met.
#[derive(Clone, Copy)]
#[repr(C)]
struct Plan {
    duration: u32,
    event: u32,
    access: u8,
    overrides: bool,
    mux: u8,
}

/// A session among all.
#[derive(Clone, Copy, PartialEq)]
#[repr(C)]
struct Id {
    session: u32,
    owner: u8,
}

#[derive(Clone, Copy)]
#[repr(C)]
struct Started {
    end: u64,
    /// Time on air, without the present stay.
    played: u64,
    id: Id,
    event: u32,
    access: u8,
    mux: u8,
}

/// An ended session (02, CR 8).
#[derive(Clone, Copy)]
#[repr(C)]
struct Past {
    id: Id,
    event: u32,
    played: u32,
    result: u16,
}

#[repr(C, align(64))]
pub struct Splicer {
    /// The waiting sessions in columns.
    starts: [u64; WAITING],
    sessions: [u32; WAITING],
    priors: [u32; WAITING],
    owners: [u8; WAITING],
    plans: [Plan; WAITING],
    /// The started ones, AccessType rising: the last is on air, those before it are covered.
    started: [Started; STARTED],
    /// The ended ones in turn, and how many there were.
    ended: [Past; ENDED],
    next: usize,
    waits: usize,
    plays: usize,
    clock: u64,
    /// Since when the one on air has been there or, with none, nothing has.
    since: u64,
    /// The primary channel's time, without the present stay (02, CR 13).
    primary: u64,
    lines: [Line; CONNECTIONS],
    name: [u8; 32],
    hardware: [[u8; HARDWARE]; CONNECTIONS],
}

#[repr(C)]
pub struct Reply {
    refused: u32,
    /// The places that an acceptance shifts in a list by start (02, CR 11).
    moved: u32,
    consumed: usize,
    written: usize,
}

impl Reply {
    fn refused(number: u32) -> Self {
        Reply {
            refused: number,
            moved: 0,
            consumed: 0,
            written: 0,
        }
    }

    fn good(consumed: usize, written: usize) -> Self {
        Reply {
            refused: 0,
            moved: 0,
            consumed,
            written,
        }
    }
}

fn be16<const N: usize>(bytes: &[u8; N], at: usize) -> u16 {
    u16::from_be_bytes([bytes[at], bytes[at + 1]])
}

fn be32<const N: usize>(bytes: &[u8; N], at: usize) -> u32 {
    u32::from_be_bytes([bytes[at], bytes[at + 1], bytes[at + 2], bytes[at + 3]])
}

fn instant(seconds: u32, micros: u32) -> u64 {
    u64::from(seconds) * SECOND + u64::from(micros) * MICROSECOND
}

/// The lent output buffer, written from its begin on.
struct Output {
    first: *mut u8,
    next: *mut u8,
    moved: u32,
}

impl Output {
    /// # Safety
    /// `first` has `ROOM` bytes. No call writes more than 3,174: 64 starts and 74 ends of 23 bytes.
    unsafe fn new(first: *mut u8) -> Self {
        Output {
            first,
            next: first,
            moved: 0,
        }
    }

    fn written(&self) -> usize {
        self.next as usize - self.first as usize
    }

    #[inline(always)]
    fn put<const N: usize>(&mut self, connection: u8, message: u16, result: u16, data: [u8; N]) {
        let header = 0x52 << 56
            | u64::from(connection) << 48
            | u64::from(message) << 32
            | (N as u64) << 16
            | u64::from(result);
        // SAFETY: as `new` says.
        unsafe {
            self.next.cast::<[u8; 8]>().write(header.to_be_bytes());
            self.next.add(8).cast::<[u8; 2]>().write([0xFF; 2]);
            self.next.add(10).cast::<[u8; N]>().write(data);
            self.next = self.next.add(10 + N);
        }
    }

    /// More data of the record of 32 bytes that was put last.
    fn more(&mut self, data: &[u8]) {
        let size = (32 + data.len()) as u16;
        // SAFETY: as `new` says.
        unsafe {
            self.next.sub(38).cast::<[u8; 2]>().write(size.to_be_bytes());
            self.next.copy_from_nonoverlapping(data.as_ptr(), data.len());
            self.next = self.next.add(data.len());
        }
    }

    fn general(&mut self, connection: u8, result: u16) {
        self.put(connection, GENERAL_RESPONSE, result, []);
    }

    fn splice(&mut self, id: Id, result: u16) {
        self.put(id.owner, SPLICE_RESPONSE, result, id.session.to_be_bytes());
    }

    fn complete(&mut self, id: Id, flag: u8, result: u16, played: u64) {
        let [a, b, c, d] = id.session.to_be_bytes();
        let [w, x, y, z] = ((played / TICK) as u32).to_be_bytes();
        let data = [a, b, c, d, flag, 0, 0, 0, 0, w, x, y, z];
        self.put(id.owner, SPLICE_COMPLETE, result, data);
    }
}

/// What follows PcrPID, PIDCount and that many structures (02, CR 1), if these are good.
fn behind_streams(data: &[u8]) -> Option<&[u8]> {
    let (head, mut rest) = data.split_first_chunk::<6>()?;
    let count = be32(head, 2);
    if be16(head, 0) > 0x1FFF || count > 16 {
        return None;
    }
    for _ in 0..count {
        let first = rest.first_chunk::<21>()?;
        let length = usize::from(first[0]);
        if length < 21 || be16(first, 1) > 0x1FFF || be16(first, 3) == 0xFFFF {
            return None;
        }
        rest = rest.get(length..)?;
    }
    Some(rest)
}

/// The value of the last muxpriority_descriptor among descriptors that fill the rest, 5 without one; none if they are
/// ill-formed or one of these is bad.
fn mux_of(mut rest: &[u8]) -> Option<u8> {
    let mut mux = 5;
    while let [tag, length, behind @ ..] = rest {
        let length = usize::from(*length);
        if !(4..=254).contains(&length) || behind.len() < length {
            return None;
        }
        let (own, next) = behind.split_at(length);
        if *tag == 2 && own[..4] == *b"SAPI" {
            mux = own[4..].first().copied().filter(|value| length == 5 && (1..=10).contains(value))?;
        }
        rest = next;
    }
    rest.is_empty().then_some(mux)
}

/// Whether two names are the same up to the first zero. One of them has a zero.
fn same_name(one: &[u8; 32], other: &[u8]) -> bool {
    for (a, b) in one.iter().zip(other) {
        if a != b {
            return false;
        }
        if *a == 0 {
            return true;
        }
    }
    false
}

fn has_zero(name: &[u8; 32]) -> bool {
    name.iter().fold(false, |found, &b| found | (b == 0))
}

impl Splicer {
    fn started(&self) -> &[Started] {
        &self.started[..self.plays]
    }

    fn id(&self, place: usize) -> Id {
        Id {
            session: self.sessions[place],
            owner: self.owners[place],
        }
    }

    /// The part of a column that has waiting sessions.
    fn used<'a, T>(&self, column: &'a [T; WAITING]) -> &'a [T] {
        &column[..self.waits]
    }

    /// The place of a connection where a column of numbers has this one.
    fn find(&self, column: &[u32; WAITING], id: Id) -> Option<usize> {
        let mut both = self.used(column).iter().zip(self.used(&self.owners));
        both.position(|(&number, &owner)| number == id.session && owner == id.owner)
    }

    fn waiting(&self, id: Id) -> Option<usize> {
        self.find(&self.sessions, id)
    }

    /// The waiting session with this start; there is at most one.
    fn starting_at(&self, start: u64) -> Option<usize> {
        let mut starts = self.used(&self.starts).iter();
        starts.position(|&other| other == start)
    }

    /// Whether a start is not after `now`.
    fn start_due(&self, now: u64) -> bool {
        self.used(&self.starts).iter().any(|&start| start <= now)
    }

    /// The first start and its place.
    fn first_start(&self) -> (u64, usize) {
        let mut first = (NEVER, 0);
        for (place, &start) in self.used(&self.starts).iter().enumerate() {
            if start < first.0 {
                first = (start, place);
            }
        }
        first
    }

    /// 02, CR 11: the waiting sessions "whose start is later than the new one's".
    fn later(&self, start: u64) -> u32 {
        let starts = self.used(&self.starts).iter();
        starts.fold(0, |count, &other| count + u32::from(other > start))
    }

    fn first_end(&self) -> u64 {
        self.started()
            .iter()
            .fold(NEVER, |first, one| first.min(one.end))
    }

    fn count(&self, connection: u8) -> u8 {
        self.used(&self.owners)
            .iter()
            .fold(0, |count, &one| count + u8::from(one == connection))
    }

    fn full(&self, connection: u8) -> bool {
        let own = self.count(connection);
        own >= SURE
            && (own >= MOST
                || (0..CONNECTIONS as u8)
                    .map(|one| self.count(one).max(SURE))
                    .sum::<u8>()
                    >= WAITING as u8)
    }

    fn remove(&mut self, place: usize) {
        let last = self.waits - 1;
        self.waits = last;
        self.starts[place] = self.starts[last];
        self.sessions[place] = self.sessions[last];
        self.priors[place] = self.priors[last];
        self.owners[place] = self.owners[last];
        self.plans[place] = self.plans[last];
    }

    /// Takes a started session out; those above it move down.
    fn finish(&mut self, place: usize) {
        for at in place + 1..self.plays {
            self.started[at - 1] = self.started[at];
        }
        self.plays -= 1;
    }

    /// The time on air, up to `now`, of the one on air, whose stay ends with it.
    fn leave_air(&mut self, place: usize, now: u64) -> u64 {
        let played = self.started[place].played + (now - self.since);
        self.since = now;
        played
    }

    fn end_waiting(&mut self, place: usize, result: u16, out: &mut Output) {
        let id = self.id(place);
        out.splice(id, result);
        self.remember(id, self.plans[place].event, result, 0);
        self.remove(place);
        self.end_followers(id, result, out);
    }

    /// No two waiting sessions have one start, so at most one names a session as its prior, and the chain is in order of start.
    fn end_followers(&mut self, mut id: Id, result: u16, out: &mut Output) {
        while let Some(place) = self.find(&self.priors, id) {
            id = self.id(place);
            out.splice(id, result);
            self.remember(id, self.plans[place].event, result, 0);
            self.remove(place);
        }
    }

    /// Keeps an end over the oldest one.
    fn remember(&mut self, id: Id, event: u32, result: u16, played: u64) {
        self.ended[self.next % ENDED] = Past {
            id,
            event,
            result,
            played: (played / TICK) as u32,
        };
        self.next += 1;
    }

    /// The latest end of this number that is kept of the asking connection (02, CR 8).
    fn extended(&mut self, connection: u8, data: &[u8], out: &mut Output) -> Option<()> {
        let data: &[u8; 8] = data.try_into().ok()?;
        if be32(data, 4) != NONE {
            return None;
        }
        let id = Id {
            session: be32(data, 0),
            owner: connection,
        };
        let [a, b, c, d, ..] = *data;
        let all = (1..=ENDED.min(self.next)).map(|back| self.ended[(self.next - back) % ENDED]);
        for past in all {
            if past.id == id {
                let mut answer = *b"\0\0\0\0\x01\x0ECARD\0\0\0\0\0\0\0\0\0\0";
                answer[..4].copy_from_slice(&[a, b, c, d]);
                answer[10..14].copy_from_slice(&past.event.to_be_bytes());
                answer[14..16].copy_from_slice(&past.result.to_be_bytes());
                answer[16..].copy_from_slice(&past.played.to_be_bytes());
                out.put(connection, EXTENDED_RESPONSE, 100, answer);
                return Some(());
            }
        }
        out.put(connection, EXTENDED_RESPONSE, 121, [a, b, c, d]);
        Some(())
    }

    fn tick(&mut self, now: u64, out: &mut Output) {
        let due = self.start_due(now);
        if due || self.first_end() <= now {
            self.instants(now, due, out);
        }
        self.clock = now;
    }

    #[inline(never)]
    fn instants(&mut self, now: u64, mut due: bool, out: &mut Output) {
        loop {
            let (start, place) = if due { self.first_start() } else { (NEVER, 0) };
            let mut end = self.first_end();
            while end <= start && end <= now {
                self.ends(end, out);
                end = self.first_end();
            }
            if !due {
                return;
            }
            self.start(place, out);
            due = self.start_due(now);
        }
    }

    fn ends(&mut self, now: u64, out: &mut Output) {
        let top = self.plays - 1;
        for place in (0..=top).rev() {
            let Started {
                end,
                mut played,
                id,
                event,
                ..
            } = self.started[place];
            if end != now {
                continue;
            }
            let mut result = 125;
            if place == top {
                played = self.leave_air(place, now);
                result = 100;
            }
            out.complete(id, 1, result, played);
            self.remember(id, event, result, played);
            self.finish(place);
        }
    }

    fn start(&mut self, place: usize, out: &mut Output) {
        let start = self.starts[place];
        let id = self.id(place);
        let plan = self.plans[place];
        self.remove(place);
        if let Some(top) = self.plays.checked_sub(1) {
            let air = self.started[top];
            if !plan.overrides || plan.access < air.access {
                out.complete(id, 0, 109, 0);
                self.remember(id, plan.event, 109, 0);
                return self.end_followers(id, 109, out);
            }
            let played = self.leave_air(top, start);
            if plan.access == air.access {
                out.complete(air.id, 1, 125, played);
                self.remember(air.id, air.event, 125, played);
                self.finish(top);
                self.end_followers(air.id, 125, out);
            } else {
                self.started[top].played = played;
            }
        } else {
            self.primary += start - self.since;
        }
        out.complete(id, 0, 100, 0);
        self.since = start;
        self.started[self.plays] = Started {
            end: start + u64::from(plan.duration) * TICK,
            played: 0,
            id,
            event: plan.event,
            access: plan.access,
            mux: plan.mux,
        };
        self.plays += 1;
    }

    /// Ends a started session before its time, by what it is (`top`: the last place before the call).
    fn cut(&mut self, place: usize, top: usize, out: &mut Output) {
        let Started {
            id,
            event,
            mut played,
            ..
        } = self.started[place];
        if place == top {
            played = self.leave_air(place, self.clock);
            out.complete(id, 1, 116, played);
        } else {
            out.splice(id, 116);
        }
        self.remember(id, event, 116, played);
        self.finish(place);
    }

    fn close(&mut self, connection: u8, out: &mut Output) {
        let plays = self.plays;
        for place in (0..plays).rev() {
            if self.started[place].id.owner == connection {
                self.cut(place, plays - 1, out);
            }
        }
        // In order of start: the start above the place.
        let mut order = [0; MOST as usize];
        let mut found = 0;
        for place in 0..self.waits {
            if self.owners[place] == connection {
                order[found] = self.starts[place] << 8 | place as u64;
                found += 1;
            }
        }
        let order = &mut order[..found];
        order.sort_unstable();
        for key in &*order {
            let place = *key as usize % WAITING;
            let id = self.id(place);
            out.splice(id, 116);
            self.remember(id, self.plans[place].event, 116, 0);
        }
        for place in (0..self.waits).rev() {
            if self.owners[place] == connection {
                self.remove(place);
            }
        }
        self.lines[usize::from(connection)] = Line::Closed;
        self.hardware[usize::from(connection)][..2].fill(0);
    }

    fn message(&mut self, connection: u8, message: u16, data: &[u8], out: &mut Output) {
        if message == GENERAL_RESPONSE {
            return;
        }
        if message != INIT_REQUEST && self.lines[usize::from(connection)] != Line::Initialised {
            return out.general(connection, 103);
        }
        let read = match message {
            INIT_REQUEST => self.init(connection, data, out),
            ALIVE_REQUEST => self.alive(connection, data, out),
            CONFIG_REQUEST => self.config(connection, data, out),
            EXTENDED_REQUEST => self.extended(connection, data, out),
            SPLICE_REQUEST => self.splice(connection, data, out),
            ABORT_REQUEST => self.abort(connection, data, out),
            CUE_RESPONSE => return,
            _ => return out.general(connection, 120),
        };
        if read.is_none() {
            out.general(connection, 123);
        }
    }

    // The answers: `None`, and nothing is done, if the data is not readable.

    fn init(&mut self, connection: u8, data: &[u8], out: &mut Output) -> Option<()> {
        let (revision, names) = data.split_first_chunk::<2>()?;
        let (channel, names) = names.split_first_chunk::<32>()?;
        let (splicer, rest) = names.split_first_chunk::<32>()?;
        let length = 2 + usize::from(be16(rest.first_chunk::<2>()?, 0));
        let hardware = rest.get(..length)?;
        if !has_zero(channel) || !has_zero(splicer) || length > HARDWARE {
            return None;
        }
        let result = if u16::from_be_bytes(*revision) != REVISION {
            102
        } else if !same_name(&self.name, channel) {
            104
        } else {
            self.lines[usize::from(connection)] = Line::Initialised;
            self.hardware[usize::from(connection)][..length].copy_from_slice(hardware);
            100
        };
        let mut answer = [0; 34];
        answer[..2].copy_from_slice(&REVISION.to_be_bytes());
        answer[2..].copy_from_slice(&self.name);
        out.put(connection, INIT_RESPONSE, result, answer);
        Some(())
    }

    /// ChannelName and the kept Hardware_Config (02, CR 6); the map sections are empty.
    fn config(&mut self, connection: u8, data: &[u8], out: &mut Output) -> Option<()> {
        if !data.is_empty() {
            return None;
        }
        let kept = &self.hardware[usize::from(connection)];
        let length = 2 + usize::from(be16(kept, 0));
        out.put(connection, CONFIG_RESPONSE, 100, self.name);
        out.more(&kept[..length]);
        Some(())
    }

    fn alive(&mut self, connection: u8, data: &[u8], out: &mut Output) -> Option<()> {
        if data.len() != 8 {
            return None;
        }
        let (state, session) = match self.started().last() {
            Some(one) => (2, one.id.session),
            None => (1, NONE),
        };
        let seconds = (self.clock / SECOND) as u32;
        let micros = (self.clock % SECOND / MICROSECOND) as u32;
        let mut answer = [0; 16];
        answer[..8].copy_from_slice(&(state << 32 | u64::from(session)).to_be_bytes());
        answer[8..12].copy_from_slice(&seconds.to_be_bytes());
        answer[12..].copy_from_slice(&micros.to_be_bytes());
        out.put(connection, ALIVE_RESPONSE, 100, answer);
        Some(())
    }

    fn abort(&mut self, connection: u8, data: &[u8], out: &mut Output) -> Option<()> {
        let session: [u8; 4] = data.try_into().ok()?;
        let id = Id {
            session: u32::from_be_bytes(session),
            owner: connection,
        };
        if let Some(place) = self.started().iter().position(|one| one.id == id) {
            out.put(connection, ABORT_RESPONSE, 100, session);
            self.cut(place, self.plays - 1, out);
            self.end_followers(id, 116, out);
        } else if let Some(place) = self.waiting(id) {
            out.put(connection, ABORT_RESPONSE, 100, session);
            self.end_waiting(place, 116, out);
        } else {
            out.put(connection, ABORT_RESPONSE, 121, session);
        }
        Some(())
    }

    fn splice(&mut self, connection: u8, data: &[u8], out: &mut Output) -> Option<()> {
        let head = data.first_chunk::<18>()?;
        let id = Id {
            session: be32(head, 0),
            owner: connection,
        };
        let tail = match be16(head, 16) {
            0xFFFF => behind_streams(&data[18..])?,
            _ => &data[18..],
        };
        let (fields, descriptors) = tail.split_first_chunk::<15>()?;
        let prior = be32(head, 4);
        let micros = be32(head, 12);
        let [access, overrides, returns] = [fields[12], fields[13], fields[14]];
        let plan = Plan {
            duration: be32(fields, 0),
            event: be32(fields, 4),
            access,
            overrides: overrides == 1,
            mux: mux_of(descriptors)?,
        };
        if plan.duration == 0
            || access > 9
            || overrides > 1
            || returns > 1
            || (prior == NONE && micros > 999_999)
        {
            return None;
        }
        let time = instant(be32(head, 8), micros);
        let result = self.accept(id, prior, time, plan, out);
        out.splice(id, result);
        Some(())
    }

    /// Checks b to f.
    fn accept(&mut self, id: Id, prior: u32, time: u64, plan: Plan, out: &mut Output) -> u16 {
        if id.session == NONE || self.held(id) {
            return 121;
        }
        let start = if prior != NONE {
            let prior = Id {
                session: prior,
                ..id
            };
            match self.end_of(prior) {
                Some(end) => end,
                None => return 121,
            }
        } else if time < self.clock + 3 * SECOND {
            return 112;
        } else {
            time
        };
        let met = self.starting_at(start);
        let least = plan.access + u8::from(plan.overrides);
        if met.is_some_and(|place| self.plans[place].access >= least) {
            return 109;
        }
        if self.full(id.owner) {
            return 114;
        }
        if let Some(place) = met {
            self.end_waiting(place, 109, out);
        }
        out.moved = self.later(start);
        let place = self.waits;
        self.starts[place] = start;
        self.sessions[place] = id.session;
        self.priors[place] = prior;
        self.owners[place] = id.owner;
        self.plans[place] = plan;
        self.waits += 1;
        100
    }

    fn held(&self, id: Id) -> bool {
        self.waiting(id).is_some() || self.started().iter().any(|one| one.id == id)
    }

    /// When this session ends, if it is held.
    fn end_of(&self, id: Id) -> Option<u64> {
        if let Some(place) = self.waiting(id) {
            return Some(self.starts[place] + u64::from(self.plans[place].duration) * TICK);
        }
        let one = self.started().iter().find(|one| one.id == id)?;
        Some(one.end)
    }
}

// The calls. A buffer is looked at only after the refusals that could concern it.

#[no_mangle]
pub extern "C" fn unordered_size() -> usize {
    size_of::<Splicer>()
}

#[no_mangle]
pub extern "C" fn unordered_fresh(s: &mut MaybeUninit<Splicer>, name: &[u8; 32]) -> Reply {
    let length = name.iter().position(|&b| b == 0);
    let mut kept = [0; 32];
    if let Some(length) = length {
        kept[..length].copy_from_slice(&name[..length]);
    }
    s.write(Splicer {
        starts: [0; WAITING],
        sessions: [0; WAITING],
        priors: [0; WAITING],
        owners: [0; WAITING],
        plans: [Plan {
            duration: 0,
            event: 0,
            access: 0,
            overrides: false,
            mux: 0,
        }; WAITING],
        started: [Started {
            end: 0,
            played: 0,
            id: Id {
                session: 0,
                owner: 0,
            },
            event: 0,
            access: 0,
            mux: 0,
        }; STARTED],
        ended: [Past {
            id: Id {
                session: 0,
                owner: 0,
            },
            event: 0,
            played: 0,
            result: 0,
        }; ENDED],
        next: 0,
        waits: 0,
        plays: 0,
        clock: 0,
        since: 0,
        primary: 0,
        lines: [Line::Closed; CONNECTIONS],
        name: kept,
        hardware: [[0; HARDWARE]; CONNECTIONS],
    });
    match length {
        Some(_) => Reply::good(0, 0),
        None => Reply::refused(9),
    }
}

#[no_mangle]
pub extern "C" fn unordered_open(s: &mut Splicer, connection: u32) -> Reply {
    match s.lines.get_mut(connection as usize) {
        None => Reply::refused(1),
        Some(line) if *line != Line::Closed => Reply::refused(6),
        Some(line) => {
            *line = Line::Open;
            Reply::good(0, 0)
        }
    }
}

/// # Safety
/// `out` has `room` bytes.
#[no_mangle]
pub unsafe extern "C" fn unordered_close(
    s: &mut Splicer,
    connection: u32,
    out: *mut u8,
    room: usize,
) -> Reply {
    let Some(&line) = s.lines.get(connection as usize) else {
        return Reply::refused(1);
    };
    if room < ROOM {
        return Reply::refused(2);
    }
    if line == Line::Closed {
        return Reply::refused(7);
    }
    let mut out = Output::new(out);
    s.close(connection as u8, &mut out);
    Reply::good(0, out.written())
}

/// # Safety
/// `input` has `length` bytes, `out` has `room` bytes.
#[no_mangle]
pub unsafe extern "C" fn unordered_message(
    s: &mut Splicer,
    connection: u32,
    input: *const u8,
    length: usize,
    out: *mut u8,
    room: usize,
) -> Reply {
    let Some(&line) = s.lines.get(connection as usize) else {
        return Reply::refused(1);
    };
    if room < ROOM {
        return Reply::refused(2);
    }
    if line == Line::Closed {
        return Reply::refused(7);
    }
    if length < HEADER {
        return Reply::refused(5);
    }
    let header = &*input.cast::<[u8; HEADER]>();
    let size = usize::from(be16(header, 2));
    if size > LARGEST {
        return Reply::refused(4);
    }
    if length < HEADER + size {
        return Reply::refused(5);
    }
    let data = slice::from_raw_parts(input.add(HEADER), size);
    let mut out = Output::new(out);
    s.message(connection as u8, be16(header, 0), data, &mut out);
    Reply {
        moved: out.moved,
        ..Reply::good(HEADER + size, out.written())
    }
}

/// # Safety
/// `out` has `room` bytes.
#[no_mangle]
pub unsafe extern "C" fn unordered_tick(
    s: &mut Splicer,
    seconds: u32,
    micros: u32,
    out: *mut u8,
    room: usize,
) -> Reply {
    if room < ROOM {
        return Reply::refused(2);
    }
    if micros > 999_999 {
        return Reply::refused(8);
    }
    let now = instant(seconds, micros);
    if now < s.clock {
        return Reply::refused(3);
    }
    let mut out = Output::new(out);
    s.tick(now, &mut out);
    Reply::good(0, out.written())
}

/// How many sessions of each connection wait: it keeps no counts, so this is a scan too.
#[no_mangle]
pub extern "C" fn unordered_waiting(s: &Splicer, counts: &mut [u64; CONNECTIONS]) {
    *counts = [0; CONNECTIONS];
    for &owner in &s.owners[..s.waits] {
        counts[usize::from(owner)] += 1;
    }
}

/// What the one on air asked of the multiplexer, 5 with none.
#[no_mangle]
pub extern "C" fn unordered_mux(s: &Splicer) -> u32 {
    s.started().last().map_or(5, |one| one.mux).into()
}

/// The primary channel's time, in ninths.
#[no_mangle]
pub extern "C" fn unordered_primary(s: &Splicer) -> u64 {
    match s.started().last() {
        Some(_) => s.primary,
        None => s.primary + (s.clock - s.since),
    }
}

#[panic_handler]
fn panic(_: &core::panic::PanicInfo) -> ! {
    loop {}
}

#[no_mangle]
pub extern "C" fn rust_eh_personality() {}
