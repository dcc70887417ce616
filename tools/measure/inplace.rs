//! The card rules of document 01, with 02's CR 1, 4, 5, 6 (sections empty), 8 and 13, as an in-place engine in plain Rust: the measuring
//! peer of the proved core.
//!
//! Written from the documents and J.280 alone, in the way one would write it for the card without counting instructions: one struct of
//! fixed size changed in place, lists of fixed capacity, iterators, bounds checks left on. Not proved, not part of the product.
//!
//! Two facts keep it short. Waiting sessions have different starts (rule d), so the waiting list is kept by start: its first
//! is the next to start, and a session's follower, which starts at its end, stands behind it and is the only one linked to it.
//! Started sessions are a stack, since only a higher AccessType covers and an equal one ends: the last is on air, the others are covered.
#![no_std]

use core::mem::MaybeUninit;
use core::ops::{Add, Deref, DerefMut, Sub};
use core::panic::PanicInfo;
use core::slice;

const CONNECTIONS: usize = 4;
const NAME: usize = 32;
const HEADER: usize = 8;
const LARGEST_DATA: usize = 4_088;
const SMALLEST_OUTPUT: usize = 4_096;
const ALL_WAITING: usize = 64;
const OWN_WAITING: u64 = 20;
const SURE_WAITING: u64 = 10;
const ACCESS_TYPES: usize = 10;
/// Bytes of a Hardware_Config with its Length.
const HARDWARE: usize = 256;
/// Ended sessions that are kept.
const KEPT: usize = 16;
const LAST_MICROSECOND: u32 = 999_999;
const REVISION: u16 = 2;
const NONE: u32 = 0xFFFF_FFFF;
const SEPARATE_PIDS: u16 = 0xFFFF;
const MOST_STREAMS: u32 = 16;
const SMALLEST_STREAM: usize = 21;
const LARGEST_PID: u16 = 0x1FFF;
const NO_STREAM_TYPE: u16 = 0xFFFF;
const MUX_PRIORITY: u8 = 0x02;
const AVERAGE: u8 = 5;
const NOTICE: Ninths = Ninths(3 * 9_000_000);

/// MessageIDs.
mod id {
    pub const GENERAL_RESPONSE: u16 = 0x0000;
    pub const INIT_REQUEST: u16 = 0x0001;
    pub const INIT_RESPONSE: u16 = 0x0002;
    pub const EXTENDED_DATA_REQUEST: u16 = 0x0003;
    pub const EXTENDED_DATA_RESPONSE: u16 = 0x0004;
    pub const ALIVE_REQUEST: u16 = 0x0005;
    pub const ALIVE_RESPONSE: u16 = 0x0006;
    pub const SPLICE_REQUEST: u16 = 0x0007;
    pub const SPLICE_RESPONSE: u16 = 0x0008;
    pub const SPLICE_COMPLETE_RESPONSE: u16 = 0x0009;
    pub const GET_CONFIG_REQUEST: u16 = 0x000A;
    pub const GET_CONFIG_RESPONSE: u16 = 0x000B;
    pub const CUE_RESPONSE: u16 = 0x000D;
    pub const ABORT_REQUEST: u16 = 0x000E;
    pub const ABORT_RESPONSE: u16 = 0x000F;
}

/// Result codes.
mod code {
    pub const SUCCESSFUL: u16 = 100;
    pub const INVALID_VERSION: u16 = 102;
    pub const ACCESS_DENIED: u16 = 103;
    pub const UNKNOWN_CHANNEL: u16 = 104;
    pub const COLLISION: u16 = 109;
    pub const TOO_LATE: u16 = 112;
    pub const QUEUE_FULL: u16 = 114;
    pub const ABORTED: u16 = 116;
    pub const UNKNOWN_MESSAGE: u16 = 120;
    pub const INVALID_SESSION: u16 = 121;
    pub const INVALID_DATA: u16 = 123;
    pub const OVERRIDDEN: u16 = 125;
}

/// Why a call was refused.
#[derive(Clone, Copy)]
#[repr(u32)]
enum Refusal {
    NoConnection = 1,
    NoRoom = 2,
    ClockBack = 3,
    Oversize = 4,
    Short = 5,
    AlreadyOpen = 6,
    NotOpen = 7,
    BadMicros = 8,
    BadName = 9,
}

/// An instant, or a length of time, in ninths of a microsecond.
#[derive(Clone, Copy, Default, PartialEq, Eq, PartialOrd, Ord)]
struct Ninths(u64);

impl Ninths {
    fn from_time(seconds: u32, micros: u32) -> Self {
        Ninths(u64::from(seconds) * 9_000_000 + u64::from(micros) * 9)
    }

    fn from_ticks(ticks: u32) -> Self {
        Ninths(u64::from(ticks) * 100)
    }

    fn to_time(self) -> (u32, u32) {
        ((self.0 / 9_000_000) as u32, (self.0 % 9_000_000 / 9) as u32)
    }

    fn to_ticks(self) -> u32 {
        (self.0 / 100) as u32
    }
}

impl Add for Ninths {
    type Output = Self;
    fn add(self, other: Self) -> Self {
        Ninths(self.0 + other.0)
    }
}

impl Sub for Ninths {
    type Output = Self;
    fn sub(self, other: Self) -> Self {
        Ninths(self.0 - other.0)
    }
}

/// A vector of at most N items, in place.
struct List<T, const N: usize> {
    items: [T; N],
    len: usize,
}

impl<T: Copy + Default, const N: usize> List<T, N> {
    fn new() -> Self {
        List { items: [T::default(); N], len: 0 }
    }

    fn insert(&mut self, index: usize, item: T) {
        self.items.copy_within(index..self.len, index + 1);
        self.items[index] = item;
        self.len += 1;
    }

    fn push(&mut self, item: T) {
        self.items[self.len] = item;
        self.len += 1;
    }

    fn remove(&mut self, index: usize) -> T {
        let item = self[index];
        self.items.copy_within(index + 1..self.len, index);
        self.len -= 1;
        item
    }

    fn retain(&mut self, mut keep: impl FnMut(&T) -> bool) {
        let mut kept = 0;
        for index in 0..self.len {
            if keep(&self.items[index]) {
                self.items[kept] = self.items[index];
                kept += 1;
            }
        }
        self.len = kept;
    }
}

impl<T, const N: usize> Deref for List<T, N> {
    type Target = [T];
    fn deref(&self) -> &[T] {
        &self.items[..self.len]
    }
}

impl<T, const N: usize> DerefMut for List<T, N> {
    fn deref_mut(&mut self) -> &mut [T] {
        &mut self.items[..self.len]
    }
}

/// An accepted session.
#[derive(Clone, Copy, Default)]
struct Session {
    connection: u8,
    id: u32,
    prior: Option<u32>,
    start: Ninths,
    end: Ninths,
    access: u8,
    overrides: bool,
    mux: u8,
    event: u32,
}

impl Session {
    fn is(&self, connection: u8, id: u32) -> bool {
        self.connection == connection && self.id == id
    }

    fn follows(&self, connection: u8, id: u32) -> bool {
        self.connection == connection && self.prior == Some(id)
    }
}

/// A session on air or covered, and its time on air up to the last change of the stack.
#[derive(Clone, Copy, Default)]
struct Started {
    session: Session,
    played: Ninths,
}

/// An ended session.
#[derive(Clone, Copy, Default)]
struct Ended {
    connection: u8,
    id: u32,
    event: u32,
    result: u16,
    played: u32,
}

#[derive(Clone, Copy, PartialEq)]
enum Link {
    Closed,
    Open,
    Initialised,
}

/// A channel name: zeros from its end on.
#[derive(Clone, Copy, PartialEq)]
struct Name([u8; NAME]);

impl Name {
    const EMPTY: Name = Name([0; NAME]);

    fn read(bytes: &[u8; NAME]) -> Option<Self> {
        let end = bytes.iter().position(|&b| b == 0)?;
        let mut name = Name::EMPTY;
        name.0[..end].copy_from_slice(&bytes[..end]);
        Some(name)
    }
}

/// A message that could be read.
enum Request<'a> {
    Init { revision: u16, channel: Name, hardware: &'a [u8] },
    GetConfig,
    Alive,
    Splice(Splice),
    Abort { id: u32 },
    ExtendedData { id: u32 },
}

struct Splice {
    id: u32,
    start: Start,
    duration: u32,
    access: u8,
    overrides: bool,
    mux: u8,
    event: u32,
}

#[derive(Clone, Copy)]
enum Start {
    Timed(Ninths),
    Linked(u32),
}

/// Why a message gets a General_Response.
enum Unfit {
    Unknown,
    Unreadable,
}

/// The bytes of a message still to be read.
struct Reader<'a>(&'a [u8]);

impl<'a> Reader<'a> {
    fn take<const N: usize>(&mut self) -> Option<&'a [u8; N]> {
        let (first, rest) = self.0.split_first_chunk()?;
        self.0 = rest;
        Some(first)
    }

    fn u8(&mut self) -> Option<u8> {
        self.take().map(|&bytes| u8::from_be_bytes(bytes))
    }

    fn u16(&mut self) -> Option<u16> {
        self.take().map(|&bytes| u16::from_be_bytes(bytes))
    }

    fn u32(&mut self) -> Option<u32> {
        self.take().map(|&bytes| u32::from_be_bytes(bytes))
    }

    fn name(&mut self) -> Option<Name> {
        Name::read(self.take()?)
    }

    fn flag(&mut self) -> Option<bool> {
        match self.u8()? {
            0 => Some(false),
            1 => Some(true),
            _ => None,
        }
    }

    /// A Hardware_Config with its Length.
    fn hardware(&mut self) -> Option<&'a [u8]> {
        let length = 2 + usize::from(u16::from_be_bytes(*self.0.first_chunk()?));
        self.0.get(..length).filter(|_| length <= HARDWARE)
    }

    fn end(&self) -> Option<()> {
        self.0.is_empty().then_some(())
    }

    fn pid(&mut self) -> Option<u16> {
        self.u16().filter(|&pid| pid <= LARGEST_PID)
    }

    /// PcrPID, PIDCount and that many structures.
    fn streams(&mut self) -> Option<()> {
        let _pcr = self.pid()?;
        let count = self.u32()?;
        if count > MOST_STREAMS {
            return None;
        }
        for _ in 0..count {
            self.stream()?;
        }
        Some(())
    }

    /// One structure; its Length counts the whole of it.
    fn stream(&mut self) -> Option<()> {
        let length = usize::from(*self.0.first()?);
        let (own, rest) = self.0.split_at_checked(length)?;
        if length < SMALLEST_STREAM {
            return None;
        }
        let mut own = Reader(&own[1..]);
        let _pid = own.pid()?;
        if own.u16()? == NO_STREAM_TYPE {
            return None;
        }
        self.0 = rest;
        Some(())
    }

    /// The descriptors to the message's end, and the value of the last muxpriority_descriptor among them.
    fn descriptors(&mut self) -> Option<u8> {
        let mut mux = AVERAGE;
        while !self.0.is_empty() {
            let tag = self.u8()?;
            let length = self.u8()?;
            if !(4..=254).contains(&length) {
                return None;
            }
            let (own, rest) = self.0.split_at_checked(usize::from(length))?;
            if tag == MUX_PRIORITY && own.starts_with(b"SAPI") {
                mux = match own[4..] {
                    [value @ 1..=10] => value,
                    _ => return None,
                };
            }
            self.0 = rest;
        }
        Some(mux)
    }
}

impl<'a> Request<'a> {
    fn parse(message_id: u16, data: &'a [u8]) -> Result<Self, Unfit> {
        let mut reader = Reader(data);
        let request = match message_id {
            id::INIT_REQUEST => Self::parse_init(&mut reader),
            id::ALIVE_REQUEST => Self::parse_alive(&mut reader),
            id::SPLICE_REQUEST => Self::parse_splice(&mut reader),
            id::ABORT_REQUEST => Self::parse_abort(&mut reader),
            id::EXTENDED_DATA_REQUEST => Self::parse_extended(&mut reader),
            id::GET_CONFIG_REQUEST => reader.end().map(|()| Request::GetConfig),
            _ => return Err(Unfit::Unknown),
        };
        request.ok_or(Unfit::Unreadable)
    }

    fn parse_init(reader: &mut Reader<'a>) -> Option<Self> {
        let revision = reader.u16()?;
        let channel = reader.name()?;
        let _splicer = reader.name()?;
        let hardware = reader.hardware()?;
        Some(Request::Init { revision, channel, hardware })
    }

    fn parse_alive(reader: &mut Reader) -> Option<Self> {
        let _time = reader.take::<8>()?;
        reader.end()?;
        Some(Request::Alive)
    }

    fn parse_abort(reader: &mut Reader) -> Option<Self> {
        let id = reader.u32()?;
        reader.end()?;
        Some(Request::Abort { id })
    }

    fn parse_extended(reader: &mut Reader) -> Option<Self> {
        let id = reader.u32()?;
        if reader.u32()? != NONE {
            return None;
        }
        reader.end()?;
        Some(Request::ExtendedData { id })
    }

    fn parse_splice(reader: &mut Reader) -> Option<Self> {
        let id = reader.u32()?;
        let prior = reader.u32()?;
        let seconds = reader.u32()?;
        let micros = reader.u32()?;
        if reader.u16()? == SEPARATE_PIDS {
            reader.streams()?;
        }
        let duration = reader.u32()?;
        let event = reader.u32()?;
        let _post_black = reader.u32()?;
        let access = reader.u8()?;
        let overrides = reader.flag()?;
        let _return_to_prior = reader.flag()?;
        let mux = reader.descriptors()?;
        if duration == 0 || usize::from(access) >= ACCESS_TYPES {
            return None;
        }
        let start = match prior {
            NONE if micros > LAST_MICROSECOND => return None,
            NONE => Start::Timed(Ninths::from_time(seconds, micros)),
            prior => Start::Linked(prior),
        };
        Some(Request::Splice(Splice { id, start, duration, access, overrides, mux, event }))
    }
}

/// The caller's output buffer and how much of it is written.
struct Output<'a> {
    buffer: &'a mut [u8],
    written: usize,
    /// The places that an acceptance shifts (02, CR 11).
    moved: u32,
}

impl<'a> Output<'a> {
    fn new(buffer: &'a mut [u8]) -> Result<Self, Refusal> {
        if buffer.len() < SMALLEST_OUTPUT {
            return Err(Refusal::NoRoom);
        }
        Ok(Output { buffer, written: 0, moved: 0 })
    }

    fn put(&mut self, bytes: &[u8]) {
        let end = self.written + bytes.len();
        self.buffer[self.written..end].copy_from_slice(bytes);
        self.written = end;
    }

    fn u8(&mut self, value: u8) {
        self.put(&[value]);
    }

    fn u16(&mut self, value: u16) {
        self.put(&value.to_be_bytes());
    }

    fn u32(&mut self, value: u32) {
        self.put(&value.to_be_bytes());
    }

    fn header(&mut self, connection: u8, message_id: u16, size: u16, result: u16) {
        let mut header = [0x52, connection, 0, 0, 0, 0, 0, 0, 0xFF, 0xFF];
        header[2..4].copy_from_slice(&message_id.to_be_bytes());
        header[4..6].copy_from_slice(&size.to_be_bytes());
        header[6..8].copy_from_slice(&result.to_be_bytes());
        self.put(&header);
    }

    fn general(&mut self, connection: u8, result: u16) {
        self.header(connection, id::GENERAL_RESPONSE, 0, result);
    }

    fn init(&mut self, connection: u8, result: u16, name: &Name) {
        self.header(connection, id::INIT_RESPONSE, 34, result);
        self.u16(REVISION);
        self.put(&name.0);
    }

    fn alive(&mut self, connection: u8, on_air: Option<u32>, clock: Ninths) {
        let (seconds, micros) = clock.to_time();
        self.header(connection, id::ALIVE_RESPONSE, 16, code::SUCCESSFUL);
        self.u32(if on_air.is_some() { 2 } else { 1 });
        self.u32(on_air.unwrap_or(NONE));
        self.u32(seconds);
        self.u32(micros);
    }

    fn abort(&mut self, connection: u8, result: u16, session: u32) {
        self.header(connection, id::ABORT_RESPONSE, 4, result);
        self.u32(session);
    }

    fn splice(&mut self, connection: u8, result: u16, session: u32) {
        self.header(connection, id::SPLICE_RESPONSE, 4, result);
        self.u32(session);
    }

    fn config(&mut self, connection: u8, name: &Name, hardware: &[u8]) {
        self.header(connection, id::GET_CONFIG_RESPONSE, (NAME + hardware.len()) as u16, code::SUCCESSFUL);
        self.put(&name.0);
        self.put(hardware);
    }

    fn extended(&mut self, connection: u8, session: u32, ended: Option<Ended>) {
        let Some(ended) = ended else {
            self.header(connection, id::EXTENDED_DATA_RESPONSE, 4, code::INVALID_SESSION);
            return self.u32(session);
        };
        self.header(connection, id::EXTENDED_DATA_RESPONSE, 20, code::SUCCESSFUL);
        self.u32(session);
        self.put(b"\x01\x0ECARD");
        self.u32(ended.event);
        self.u16(ended.result);
        self.u32(ended.played);
    }

    fn complete_in(&mut self, session: &Session, result: u16) {
        self.complete(session, 0, result, Ninths(0));
    }

    fn complete_out(&mut self, started: &Started, result: u16) {
        self.complete(&started.session, 1, result, started.played);
    }

    fn complete(&mut self, session: &Session, flag: u8, result: u16, played: Ninths) {
        self.header(session.connection, id::SPLICE_COMPLETE_RESPONSE, 13, result);
        self.u32(session.id);
        self.u8(flag);
        self.u32(0);
        self.u32(played.to_ticks());
    }
}

/// One output channel with its connections.
pub struct InPlace {
    clock: Ninths,
    /// Since when the stack of started sessions has stood as it does.
    since: Ninths,
    /// The primary channel's time up to then (02, CR 13).
    primary: Ninths,
    name: Name,
    links: [Link; CONNECTIONS],
    /// Of each connection, with its Length (02, CR 6).
    hardware: [[u8; HARDWARE]; CONNECTIONS],
    /// By start.
    waiting: List<Session, ALL_WAITING>,
    /// How many of them each connection has.
    counts: [u64; CONNECTIONS],
    /// By AccessType; the last is on air.
    started: List<Started, ACCESS_TYPES>,
    /// The last ones ended, in turn (02, CR 8).
    ended: Past,
}

/// The ended sessions, the newest over the oldest.
struct Past {
    items: [Ended; KEPT],
    next: usize,
}

impl Past {
    fn keep(&mut self, session: &Session, result: u16, played: Ninths) {
        let Session { connection, id, event, .. } = *session;
        self.items[self.next % KEPT] = Ended { connection, id, event, result, played: played.to_ticks() };
        self.next += 1;
    }

    /// The latest end of this number.
    fn find(&self, connection: u8, id: u32) -> Option<Ended> {
        let mut newest_first = (1..=self.next.min(KEPT)).map(|back| self.items[(self.next - back) % KEPT]);
        newest_first.find(|ended| ended.connection == connection && ended.id == id)
    }
}

impl InPlace {
    fn new(name: Name) -> Self {
        InPlace {
            clock: Ninths(0),
            since: Ninths(0),
            primary: Ninths(0),
            name,
            links: [Link::Closed; CONNECTIONS],
            hardware: [[0; HARDWARE]; CONNECTIONS],
            waiting: List::new(),
            counts: [0; CONNECTIONS],
            started: List::new(),
            ended: Past { items: [Ended::default(); KEPT], next: 0 },
        }
    }

    fn open(&mut self, conn: u32) -> Result<(), Refusal> {
        let link = self.links.get_mut(conn as usize).ok_or(Refusal::NoConnection)?;
        if *link != Link::Closed {
            return Err(Refusal::AlreadyOpen);
        }
        *link = Link::Open;
        Ok(())
    }

    fn close(&mut self, conn: u32, buffer: &mut [u8]) -> Result<usize, Refusal> {
        let link = *self.links.get(conn as usize).ok_or(Refusal::NoConnection)?;
        let mut out = Output::new(buffer)?;
        if link == Link::Closed {
            return Err(Refusal::NotOpen);
        }
        self.end_connection(conn as u8, &mut out);
        self.links[conn as usize] = Link::Closed;
        self.hardware[conn as usize][..2].fill(0);
        Ok(out.written)
    }

    fn message(&mut self, conn: u32, input: &[u8], buffer: &mut [u8]) -> Result<Reply, Refusal> {
        let link = *self.links.get(conn as usize).ok_or(Refusal::NoConnection)?;
        let mut out = Output::new(buffer)?;
        if link == Link::Closed {
            return Err(Refusal::NotOpen);
        }
        let (message_id, data) = frame(input)?;
        self.answer(conn as u8, message_id, data, &mut out);
        Ok(Reply { refused: 0, moved: out.moved, consumed: HEADER + data.len(), written: out.written })
    }

    fn tick(&mut self, seconds: u32, micros: u32, buffer: &mut [u8]) -> Result<usize, Refusal> {
        let mut out = Output::new(buffer)?;
        if micros > LAST_MICROSECOND {
            return Err(Refusal::BadMicros);
        }
        let now = Ninths::from_time(seconds, micros);
        if now < self.clock {
            return Err(Refusal::ClockBack);
        }
        while let Some(instant) = self.next_instant().filter(|&instant| instant <= now) {
            self.end_due(instant, &mut out);
            self.start_due(instant, &mut out);
        }
        self.clock = now;
        Ok(out.written)
    }

    fn next_instant(&self) -> Option<Ninths> {
        let start = self.waiting.first().map(|session| session.start);
        let end = self.started.iter().map(|started| started.session.end).min();
        start.into_iter().chain(end).min()
    }

    /// Credits the one on air or, with none, the primary channel with its time up to now, before the stack changes.
    fn settle(&mut self, now: Ninths) {
        let since = core::mem::replace(&mut self.since, now);
        let time = match self.started.last_mut() {
            Some(on_air) => &mut on_air.played,
            None => &mut self.primary,
        };
        *time = *time + (now - since);
    }

    fn primary(&self) -> Ninths {
        match self.started.last() {
            Some(_) => self.primary,
            None => self.primary + (self.clock - self.since),
        }
    }

    fn end_due(&mut self, now: Ninths, out: &mut Output) {
        self.settle(now);
        let mut result = code::SUCCESSFUL;
        for index in (0..self.started.len()).rev() {
            if self.started[index].session.end == now {
                let ended = self.started.remove(index);
                out.complete_out(&ended, result);
                self.ended.keep(&ended.session, result, ended.played);
            }
            result = code::OVERRIDDEN;
        }
    }

    fn start_due(&mut self, now: Ninths, out: &mut Output) {
        if self.waiting.first().is_none_or(|session| session.start != now) {
            return;
        }
        let session = self.take_waiting(0);
        let plays = match self.started.last() {
            Some(on_air) => session.overrides && session.access >= on_air.session.access,
            None => true,
        };
        if plays {
            self.end_equal(session.access, out);
            out.complete_in(&session, code::SUCCESSFUL);
            self.started.push(Started { session, played: Ninths(0) });
        } else {
            out.complete_in(&session, code::COLLISION);
            self.ended.keep(&session, code::COLLISION, Ninths(0));
            self.end_followers(session.connection, session.id, code::COLLISION, out);
        }
    }

    /// Ends the one on air at once, and its followers, if it has this AccessType.
    fn end_equal(&mut self, access: u8, out: &mut Output) {
        if self.started.last().is_some_and(|on_air| on_air.session.access == access) {
            let old = self.started.remove(self.started.len() - 1);
            out.complete_out(&old, code::OVERRIDDEN);
            self.ended.keep(&old.session, code::OVERRIDDEN, old.played);
            self.end_followers(old.session.connection, old.session.id, code::OVERRIDDEN, out);
        }
    }

    /// Takes a waiting session out of the list; its connection has one less.
    fn take_waiting(&mut self, index: usize) -> Session {
        let session = self.waiting.remove(index);
        self.counts[usize::from(session.connection)] -= 1;
        session
    }

    /// Ends the followers of a session. Each stands behind the one it is linked to, so one pass finds them all.
    fn end_followers(&mut self, connection: u8, id: u32, result: u16, out: &mut Output) {
        let count = &mut self.counts[usize::from(connection)];
        let past = &mut self.ended;
        let mut prior = id;
        self.waiting.retain(|session| {
            let follows = session.follows(connection, prior);
            if follows {
                out.splice(connection, result, session.id);
                past.keep(session, result, Ninths(0));
                prior = session.id;
                *count -= 1;
            }
            !follows
        });
    }

    fn end_connection(&mut self, connection: u8, out: &mut Output) {
        self.settle(self.clock);
        let mut on_air = true;
        for index in (0..self.started.len()).rev() {
            if self.started[index].session.connection == connection {
                let ended = self.started.remove(index);
                self.abort_started(&ended, on_air, out);
            }
            on_air = false;
        }
        let past = &mut self.ended;
        self.waiting.retain(|session| {
            let ends = session.connection == connection;
            if ends {
                out.splice(connection, code::ABORTED, session.id);
                past.keep(session, code::ABORTED, Ninths(0));
            }
            !ends
        });
        self.counts[usize::from(connection)] = 0;
    }

    fn abort_started(&mut self, started: &Started, on_air: bool, out: &mut Output) {
        self.ended.keep(&started.session, code::ABORTED, started.played);
        if on_air {
            out.complete_out(started, code::ABORTED);
        } else {
            out.splice(started.session.connection, code::ABORTED, started.session.id);
        }
    }

    fn answer(&mut self, connection: u8, message_id: u16, data: &[u8], out: &mut Output) {
        let initialised = self.links[usize::from(connection)] == Link::Initialised;
        match message_id {
            id::GENERAL_RESPONSE => return,
            id::INIT_REQUEST => {}
            _ if !initialised => return out.general(connection, code::ACCESS_DENIED),
            id::CUE_RESPONSE => return,
            _ => {}
        }
        match Request::parse(message_id, data) {
            Ok(Request::Init { revision, channel, hardware }) => {
                let result = self.init(connection, revision, &channel, out);
                if result == code::SUCCESSFUL {
                    self.hardware[usize::from(connection)][..hardware.len()].copy_from_slice(hardware);
                }
            }
            Ok(Request::GetConfig) => {
                let kept = &self.hardware[usize::from(connection)];
                let length = 2 + usize::from(u16::from_be_bytes([kept[0], kept[1]]));
                out.config(connection, &self.name, &kept[..length]);
            }
            Ok(Request::Alive) => out.alive(connection, self.on_air(), self.clock),
            Ok(Request::Splice(splice)) => self.splice(connection, &splice, out),
            Ok(Request::Abort { id }) => self.abort(connection, id, out),
            Ok(Request::ExtendedData { id }) => out.extended(connection, id, self.ended.find(connection, id)),
            Err(Unfit::Unknown) => out.general(connection, code::UNKNOWN_MESSAGE),
            Err(Unfit::Unreadable) => out.general(connection, code::INVALID_DATA),
        }
    }

    fn on_air(&self) -> Option<u32> {
        self.started.last().map(|started| started.session.id)
    }

    fn init(&mut self, connection: u8, revision: u16, channel: &Name, out: &mut Output) -> u16 {
        let result = if revision != REVISION {
            code::INVALID_VERSION
        } else if *channel != self.name {
            code::UNKNOWN_CHANNEL
        } else {
            self.links[usize::from(connection)] = Link::Initialised;
            code::SUCCESSFUL
        };
        out.init(connection, result, &self.name);
        result
    }

    fn abort(&mut self, connection: u8, id: u32, out: &mut Output) {
        if let Some(index) = self.started.iter().position(|started| started.session.is(connection, id)) {
            let on_air = index + 1 == self.started.len();
            self.settle(self.clock);
            let ended = self.started.remove(index);
            out.abort(connection, code::SUCCESSFUL, id);
            self.abort_started(&ended, on_air, out);
        } else if let Some(index) = self.waiting.iter().position(|session| session.is(connection, id)) {
            let session = self.take_waiting(index);
            out.abort(connection, code::SUCCESSFUL, id);
            out.splice(connection, code::ABORTED, id);
            self.ended.keep(&session, code::ABORTED, Ninths(0));
        } else {
            return out.abort(connection, code::INVALID_SESSION, id);
        }
        self.end_followers(connection, id, code::ABORTED, out);
    }

    fn splice(&mut self, connection: u8, splice: &Splice, out: &mut Output) {
        let result = match self.admit(connection, splice) {
            Ok(session) => {
                self.evict(session.start, out);
                let place = self.waiting.partition_point(|other| other.start < session.start);
                out.moved = (self.waiting.len() - place) as u32;
                self.waiting.insert(place, session);
                self.counts[usize::from(connection)] += 1;
                code::SUCCESSFUL
            }
            Err(result) => result,
        };
        out.splice(connection, result, splice.id);
    }

    /// The session that a Splice_Request asks for, or the result code that refuses it.
    fn admit(&self, connection: u8, splice: &Splice) -> Result<Session, u16> {
        if splice.id == NONE || self.held(connection, splice.id).is_some() {
            return Err(code::INVALID_SESSION);
        }
        let (start, prior) = match splice.start {
            Start::Timed(start) if start < self.clock + NOTICE => return Err(code::TOO_LATE),
            Start::Timed(start) => (start, None),
            Start::Linked(prior) => {
                let held = self.held(connection, prior).ok_or(code::INVALID_SESSION)?;
                (held.end, Some(prior))
            }
        };
        let wins = |other: &Session| splice.access > other.access || (splice.overrides && splice.access == other.access);
        if self.waiting.iter().any(|other| other.start == start && !wins(other)) {
            return Err(code::COLLISION);
        }
        if self.is_full(connection) {
            return Err(code::QUEUE_FULL);
        }
        Ok(Session {
            connection,
            id: splice.id,
            prior,
            start,
            end: start + Ninths::from_ticks(splice.duration),
            access: splice.access,
            overrides: splice.overrides,
            mux: splice.mux,
            event: splice.event,
        })
    }

    fn held(&self, connection: u8, id: u32) -> Option<&Session> {
        let started = self.started.iter().map(|started| &started.session);
        self.waiting.iter().chain(started).find(|session| session.is(connection, id))
    }

    fn is_full(&self, connection: u8) -> bool {
        let own = self.counts[usize::from(connection)];
        let reserved: u64 = self.counts.iter().map(|&count| count.max(SURE_WAITING)).sum();
        own >= OWN_WAITING || (own >= SURE_WAITING && reserved >= ALL_WAITING as u64)
    }

    /// Ends the waiting session with this start, if there is one, and its followers.
    fn evict(&mut self, start: Ninths, out: &mut Output) {
        if let Some(index) = self.waiting.iter().position(|session| session.start == start) {
            let evicted = self.take_waiting(index);
            out.splice(evicted.connection, code::COLLISION, evicted.id);
            self.ended.keep(&evicted, code::COLLISION, Ninths(0));
            self.end_followers(evicted.connection, evicted.id, code::COLLISION, out);
        }
    }
}

/// The MessageID and the data of the first message.
fn frame(input: &[u8]) -> Result<(u16, &[u8]), Refusal> {
    let (header, rest) = input.split_first_chunk::<HEADER>().ok_or(Refusal::Short)?;
    let message_id = u16::from_be_bytes([header[0], header[1]]);
    let size = usize::from(u16::from_be_bytes([header[2], header[3]]));
    if size > LARGEST_DATA {
        return Err(Refusal::Oversize);
    }
    let data = rest.get(..size).ok_or(Refusal::Short)?;
    Ok((message_id, data))
}

/// What a call answers, as in include/splicer.h.
#[repr(C)]
pub struct Reply {
    refused: u32,
    moved: u32,
    consumed: usize,
    written: usize,
}

impl Reply {
    fn refusal(refusal: Refusal) -> Self {
        Reply { refused: refusal as u32, moved: 0, consumed: 0, written: 0 }
    }

    fn good(consumed: usize, written: usize) -> Self {
        Reply { refused: 0, moved: 0, consumed, written }
    }
}

/// The size of an InPlace, for a caller that lends its memory.
#[no_mangle]
pub extern "C" fn inplace_size() -> usize {
    size_of::<InPlace>()
}

#[no_mangle]
pub extern "C" fn inplace_fresh(s: &mut MaybeUninit<InPlace>, name: &[u8; NAME]) -> Reply {
    let read = Name::read(name);
    s.write(InPlace::new(read.unwrap_or(Name::EMPTY)));
    match read {
        Some(_) => Reply::good(0, 0),
        None => Reply::refusal(Refusal::BadName),
    }
}

#[no_mangle]
pub extern "C" fn inplace_open(s: &mut InPlace, conn: u32) -> Reply {
    s.open(conn).map_or_else(Reply::refusal, |()| Reply::good(0, 0))
}

/// # Safety
/// `out` leads to `room` bytes that only this call uses.
#[no_mangle]
pub unsafe extern "C" fn inplace_close(s: &mut InPlace, conn: u32, out: *mut u8, room: usize) -> Reply {
    let out = unsafe { slice::from_raw_parts_mut(out, room) };
    s.close(conn, out).map_or_else(Reply::refusal, |written| Reply::good(0, written))
}

/// # Safety
/// `input` leads to `length` bytes, `out` to `room` bytes that only this call uses.
#[no_mangle]
pub unsafe extern "C" fn inplace_message(
    s: &mut InPlace,
    conn: u32,
    input: *const u8,
    length: usize,
    out: *mut u8,
    room: usize,
) -> Reply {
    let (input, out) = unsafe { (slice::from_raw_parts(input, length), slice::from_raw_parts_mut(out, room)) };
    s.message(conn, input, out).unwrap_or_else(Reply::refusal)
}

/// # Safety
/// `out` leads to `room` bytes that only this call uses.
#[no_mangle]
pub unsafe extern "C" fn inplace_tick(s: &mut InPlace, seconds: u32, micros: u32, out: *mut u8, room: usize) -> Reply {
    let out = unsafe { slice::from_raw_parts_mut(out, room) };
    s.tick(seconds, micros, out).map_or_else(Reply::refusal, |written| Reply::good(0, written))
}

/// How many sessions of each connection wait.
#[no_mangle]
pub extern "C" fn inplace_waiting(s: &InPlace, counts: &mut [u64; CONNECTIONS]) {
    *counts = s.counts;
}

/// What the one on air asked of the multiplexer, 5 with none.
#[no_mangle]
pub extern "C" fn inplace_mux(s: &InPlace) -> u32 {
    s.started.last().map_or(AVERAGE, |started| started.session.mux).into()
}

/// The primary channel's time, in ninths.
#[no_mangle]
pub extern "C" fn inplace_primary(s: &InPlace) -> u64 {
    s.primary().0
}

#[panic_handler]
fn panic(_: &PanicInfo) -> ! {
    loop {}
}

/// Named by the unwinding tables of the compiled core library; nothing unwinds here.
#[no_mangle]
pub extern "C" fn rust_eh_personality() {}
