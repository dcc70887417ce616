//! Deliberate mistakes of an engine that only remembers (02, CR 12), one at a time: that of `recall.rs` once more,
//! with a place for each. Without a mistake it is that one.

use crate::config::{Maps, MOST_SECTION};
use crate::hold::faults::{mistakes, rules_of, Fault};
use crate::people::card::{self, Call as Kept, Stop};
use crate::people::recall::{self, Asked, List, Remembers, Reply, FULL, LEAST_FREE, LOG, MOST};
use crate::people::record_lines::{self, Record, What};
use crate::rules::{ninths, Session, Splicer, State, ROOM};

mistakes! { Lapse, LAPSES;
    RefusedKept: "a refused call is kept",
    IdleTickDropped: "a good tick that writes nothing is not kept",
    PresentTickDropped: "a tick to the present time is not kept",
    SilentDropped: "a message without an answer is not kept",
    AskingDropped: "Alive, GetConfig and ExtendedData, which change nothing, are not kept",
    GeneralDropped: "a message with a General_Response is not kept",
    NotAcceptedDropped: "a Splice_Request that is not accepted is not kept",
    BehindKept: "bytes behind the first message are kept",
    SectionsKept: "the lent sections are kept behind the message",
    ResultsAnew: "a kept message's Result fields are written anew",
    TickMarkAnew: "a tick's second byte is kept as 0xFF",
    CloseForgets: "a close drops its connection's calls from the log",
    NoZero: "no zero behind the last",
    ZeroWhenRefused: "a refused call writes the zero behind the last",
    ClearedBehind: "all behind the last is cleared",
    AtTheZero: "appended at the first zero behind the last, and not at what ends the list",
    At255: "13 with 255 kept",
    At257: "an answer with 256 kept",
    Exactly256: "an answer with more than 256 kept",
    RefusedUncounted: "kept calls that the rules refuse are not counted",
    Free4098: "13 with 4,098 bytes free",
    Free4097: "an answer with 4,097 bytes free",
    FreeForThisOne: "13 only where the call's own record does not fit",
    FreeByZeros: "the free bytes are the zeros at the log's end",
    LongerTaken: "a longer log is taken",
    ShorterTaken: "a shorter log is taken",
    BehindOne: "13 behind 1",
    BehindTwo: "13 behind 2",
    BehindAll: "13 behind all others",
    FullKeeps: "a call with 13 is kept if it fits",
    FullZero: "13 writes a zero behind the last",
    FreshFull: "fresh refused on a full log",
    FreshAnyLength: "fresh takes a log of any length",
    FreshClears: "fresh clears a log of another length and refuses it",
    FreshFirstByte: "fresh clears the first byte only",
    FreshUsed: "fresh clears the kept calls only",
    OversizeKept: "an oversize header in the log is a kept call",
    UnknownPassed: "a byte other than 0 that begins no call is passed over",
    RefusedEnds: "a kept call that the rules refuse ends the list",
    LastForgotten: "the last kept call is not gone through",
    FirstForgotten: "the first kept call is not gone through",
    EndedWaits: "one that ended while it waited is waiting again",
    FollowerLeft: "a follower two links behind is left waiting",
    LowestOnAir: "of those started the lowest AccessType is on air",
    StartFirst: "the start before the ends",
    FirstHardware: "the Hardware_Config of the first Init",
    FailedHardware: "the Hardware_Config of a later Init that failed",
    ClosedHardware: "behind a close and an open the older Hardware_Config stays",
    ConsumedAll: "all that was read is told as consumed",
    MovedBefore: "a call that accepts nothing reports the last acceptance's number",
    PassWrites: "the kept calls' records are written into the lent buffer",
    SectionsUnread: "the present call's sections are taken as empty",
    TenBeforeSeven: "10 before 7",
    TenBehindFive: "10 behind 5",
    ConnectionByte: "connection 256 taken as 0",
    StopsAtThirteen: "the program stops at 13",
    FreshAtThirteen: "the program clears its log at 13",
    OversizeGoesOn: "the program goes on behind an oversize header that gets 13",
}

/// Those of the program alone.
pub const OF_PROGRAM: [Lapse; 3] = [Lapse::StopsAtThirteen, Lapse::FreshAtThirteen, Lapse::OversizeGoesOn];

/// The engine with a mistake.
#[derive(Clone, Copy, Debug)]
pub struct Lapsed(pub Option<Lapse>);

impl Remembers for Lapsed {
    fn call(&self, log: &mut [u8], asked: &Asked, out: &mut [u8]) -> Reply {
        if *asked == Asked::Fresh {
            return self.fresh(log);
        }
        let list = self.list(log);
        if self.full(log, &list, asked) && !self.let_by(&list, asked, out.len()) {
            self.full_changes(log, &list, asked);
            return Reply::refusal(FULL);
        }
        let mut splicer = self.after(&list.calls, out);
        let moved = splicer.moved;
        match self.answer(&mut splicer, asked, out.len()) {
            Err(number) => {
                self.refusal_changes(log, &list, asked);
                Reply::refusal(number)
            }
            Ok((written, consumed)) => {
                let bytes = record_lines::all_bytes(&written);
                out[..bytes.len()].copy_from_slice(&bytes);
                self.keep(log, &list, asked, &written);
                self.told(asked, consumed, bytes.len(), (moved, splicer.moved))
            }
        }
    }
}

impl Lapsed {
    fn is(&self, own: Lapse) -> bool {
        self.0 == Some(own)
    }

    /// The reply of a good call; moved by the last kept call and by this one.
    fn told(&self, asked: &Asked, consumed: usize, written: usize, (before, now): (usize, usize)) -> Reply {
        let consumed = match (asked, self.0) {
            (Asked::Message(_, read, _), Some(Lapse::ConsumedAll)) => read.len(),
            _ => consumed,
        };
        let moved = match self.0 {
            Some(Lapse::MovedBefore) if now == 0 => before,
            _ => now,
        };
        Reply { refused: 0, consumed, written, moved }
    }

    fn fresh(&self, log: &mut [u8]) -> Reply {
        let list = self.list(log);
        let refused = match self.0 {
            Some(Lapse::FreshAnyLength) => false,
            Some(Lapse::FreshFull) => recall::full(log, &list),
            _ => log.len() != LOG,
        };
        if refused {
            if self.is(Lapse::FreshClears) {
                log.fill(0);
            }
            return Reply::refusal(FULL);
        }
        match self.0 {
            Some(Lapse::FreshFirstByte) => log[0] = 0,
            Some(Lapse::FreshUsed) => log[..list.used].fill(0),
            _ => log.fill(0),
        }
        Reply::default()
    }

    fn list(&self, log: &[u8]) -> List {
        let mut list = recall::list(log);
        loop {
            // the byte that ended it
            let passed = match card::next_call(&log[list.used..]) {
                Ok((call, length)) if self.is(Lapse::OversizeKept) => {
                    list.calls.push(call);
                    length
                }
                Err(Stop::OtherMark) if self.is(Lapse::UnknownPassed) && log[list.used] != 0 => 1,
                _ => return list,
            };
            let behind = recall::list(&log[list.used + passed..]);
            list.calls.extend(behind.calls);
            list.used += passed + behind.used;
        }
    }

    fn full(&self, log: &[u8], list: &List, asked: &Asked) -> bool {
        let length = log.len();
        let other_length = match self.0 {
            Some(Lapse::LongerTaken) => length < LOG,
            Some(Lapse::ShorterTaken) => length > LOG,
            _ => length != LOG,
        };
        let kept = list.calls.len();
        let many = match self.0 {
            Some(Lapse::At255) => kept >= MOST - 1,
            Some(Lapse::At257) => kept > MOST,
            Some(Lapse::Exactly256) => kept == MOST,
            Some(Lapse::RefusedUncounted) => kept >= MOST && good(&list.calls) >= MOST,
            _ => kept >= MOST,
        };
        let free = match self.0 {
            Some(Lapse::FreeByZeros) => log.iter().rev().take_while(|b| **b == 0).count(),
            _ => length - list.used,
        };
        let least = match self.0 {
            Some(Lapse::Free4098) => LEAST_FREE + 1,
            Some(Lapse::Free4097) => LEAST_FREE - 1,
            Some(Lapse::FreeForThisOne) => recall::record(asked).len(),
            _ => LEAST_FREE,
        };
        other_length || many || free < least
    }

    /// Whether a mistake in the order lets the call by.
    fn let_by(&self, list: &List, asked: &Asked, room: usize) -> bool {
        let refused = || {
            let mut splicer = recall::after(&list.calls);
            recall::answer(&mut splicer, asked, room).err()
        };
        match self.0 {
            Some(Lapse::BehindOne) => refused() == Some(1),
            Some(Lapse::BehindTwo) => refused() == Some(2),
            Some(Lapse::BehindAll) => refused().is_some(),
            _ => false,
        }
    }

    fn full_changes(&self, log: &mut [u8], list: &List, asked: &Asked) {
        if log.len() == LOG && self.is(Lapse::FullKeeps) {
            append(log, list.used, &recall::record(asked));
        }
        if self.is(Lapse::FullZero) {
            append(log, list.used, &[]);
        }
    }

    fn refusal_changes(&self, log: &mut [u8], list: &List, asked: &Asked) {
        if self.is(Lapse::RefusedKept) {
            append(log, list.used, &recall::record(asked));
        }
        if self.is(Lapse::ZeroWhenRefused) {
            append(log, list.used, &[]);
        }
    }

    fn after(&self, calls: &[Kept], out: &mut [u8]) -> Splicer {
        let (mut splicer, _) = Splicer::fresh(&card::channel_name());
        splicer.rules = rules_of(self.fault());
        let from = usize::from(self.is(Lapse::FirstForgotten)).min(calls.len());
        let left = usize::from(self.is(Lapse::LastForgotten)).min(calls.len());
        let mut waited = Vec::new();
        for call in &calls[from..calls.len() - left] {
            let before = self.looks_back().then(|| splicer.clone());
            let written = card::make(&mut splicer, call);
            if self.is(Lapse::PassWrites) && written.len() <= out.len() {
                out[..written.len()].copy_from_slice(&written);
            }
            if self.is(Lapse::RefusedEnds) && written.first() == Some(&0x45) {
                break;
            }
            match (before, self.0) {
                (Some(before), Some(Lapse::EndedWaits)) => {
                    waited.extend(no_longer(&before, &splicer));
                }
                (Some(before), _) => older_hardware(&mut splicer, before.hardware),
                _ => {}
            }
        }
        splicer.sessions.extend(waited);
        splicer
    }

    /// A mistake in the rules themselves.
    fn fault(&self) -> Option<Fault> {
        Some(match self.0? {
            Lapse::FirstHardware => Fault::FirstHardwareKept,
            Lapse::FailedHardware => Fault::FailedInitKept,
            Lapse::FollowerLeft => Fault::OnlyDirectFollower,
            Lapse::LowestOnAir => Fault::LowestOnAirAgain,
            Lapse::StartFirst => Fault::StartBeforeEnds,
            _ => return None,
        })
    }

    /// Whether the mistake looks at what was before each kept call.
    fn looks_back(&self) -> bool {
        self.is(Lapse::EndedWaits) || self.is(Lapse::ClosedHardware)
    }

    fn answer(&self, splicer: &mut Splicer, asked: &Asked, room: usize) -> Result<(Vec<Record>, usize), u8> {
        let asked = match (*asked, self.0) {
            (Asked::Open(conn), Some(Lapse::ConnectionByte)) => Asked::Open(conn % 256),
            (Asked::Close(conn), Some(Lapse::ConnectionByte)) => Asked::Close(conn % 256),
            (Asked::Message(conn, read, maps), Some(lapse)) => {
                let long = maps.primary.len().max(maps.insertion.len()) > MOST_SECTION;
                let ten = lapse == Lapse::TenBeforeSeven && conn < 4 && room >= ROOM;
                if long && ten {
                    return Err(10);
                }
                spoiled(conn, read, maps, lapse)
            }
            (asked, _) => asked,
        };
        recall::answer(splicer, &asked, room)
    }

    fn keep(&self, log: &mut [u8], list: &List, asked: &Asked, written: &[Record]) {
        if self.drops(list, asked, written) {
            return;
        }
        let used = self.begin(log, list, asked);
        let record = self.record(asked);
        let to = (used + record.len()).min(log.len());
        let behind = log.get(to).copied();
        append(log, used, &record);
        match (self.0, behind) {
            (Some(Lapse::NoZero), Some(byte)) => log[to] = byte,
            (Some(Lapse::ClearedBehind), _) => log[to..].fill(0),
            _ => {}
        }
    }

    /// Where its record begins.
    fn begin(&self, log: &mut [u8], list: &List, asked: &Asked) -> usize {
        match (self.0, asked) {
            (Some(Lapse::CloseForgets), Asked::Close(conn)) => {
                let others = list.calls.iter().filter(|call| !of(call, *conn as u8));
                let others: Vec<u8> = others.flat_map(card::input_bytes).collect();
                log[..others.len()].copy_from_slice(&others);
                others.len()
            }
            (Some(Lapse::AtTheZero), _) => {
                let zero = log[list.used..].iter().position(|byte| *byte == 0);
                list.used + zero.unwrap_or(0)
            }
            _ => list.used,
        }
    }

    /// Whether a mistake does not keep this good call.
    fn drops(&self, list: &List, asked: &Asked, written: &[Record]) -> bool {
        let bytes = record_lines::all_bytes(written);
        let id = |read: &[u8]| u16::from_be_bytes([read[0], read[1]]);
        match (self.0, *asked) {
            (Some(Lapse::IdleTickDropped), Asked::Tick(..)) => bytes.is_empty(),
            (Some(Lapse::PresentTickDropped), Asked::Tick(seconds, micros)) => {
                recall::after(&list.calls).clock == ninths(seconds, micros)
            }
            (Some(Lapse::SilentDropped), Asked::Message(..)) => bytes.is_empty(),
            (Some(Lapse::AskingDropped), Asked::Message(_, read, _)) => [0x0005, 0x000A, 0x0003].contains(&id(read)),
            (Some(Lapse::GeneralDropped), Asked::Message(..)) => bytes.get(2..4) == Some(&[0, 0]),
            (Some(Lapse::NotAcceptedDropped), Asked::Message(_, read, _)) => {
                let last = written.last().map(|record| &record.what);
                id(read) == 7 && !matches!(last, Some(What::Splice { result: 100, .. }))
            }
            _ => false,
        }
    }

    fn record(&self, asked: &Asked) -> Vec<u8> {
        let mut record = recall::record(asked);
        match (self.0, *asked) {
            (Some(Lapse::BehindKept), Asked::Message(_, read, _)) => {
                record.truncate(2);
                record.extend(read);
            }
            (Some(Lapse::SectionsKept), Asked::Message(_, _, maps)) => {
                record.extend([maps.primary, maps.insertion].concat());
            }
            (Some(Lapse::ResultsAnew), Asked::Message(..)) => record[6..10].fill(0xFF),
            (Some(Lapse::TickMarkAnew), Asked::Tick(..)) => record[1] = 0xFF,
            _ => {}
        }
        record
    }
}

/// What a mistake makes of a message.
fn spoiled<'c>(conn: u32, read: &'c [u8], maps: Maps<'c>, lapse: Lapse) -> Asked<'c> {
    match lapse {
        Lapse::ConnectionByte => Asked::Message(conn % 256, read, maps),
        Lapse::SectionsUnread => Asked::Message(conn, read, Maps::EMPTY),
        Lapse::TenBehindFive if read.len() < 8 => Asked::Message(conn, read, Maps::EMPTY),
        _ => Asked::Message(conn, read, maps),
    }
}

/// As much of a record as fits, and a zero behind it.
fn append(log: &mut [u8], used: usize, record: &[u8]) {
    let fits = record.len().min(log.len() - used);
    recall::append(log, used, &record[..fits]);
}

/// How many of these calls the rules do not refuse.
fn good(calls: &[Kept]) -> usize {
    let (mut splicer, _) = Splicer::fresh(&card::channel_name());
    let mut refused = |call: &Kept| card::make(&mut splicer, call).first() == Some(&0x45);
    calls.iter().filter(|call| !refused(call)).count()
}

/// The sessions that waited before a call and have ended in it.
fn no_longer(before: &Splicer, after: &Splicer) -> Vec<Session> {
    let ended = |s: &&Session| s.state == State::Waiting && after.held(s.conn, s.id).is_none();
    before.sessions.iter().filter(ended).cloned().collect()
}

/// What was kept before a call stays, once there is something.
fn older_hardware(splicer: &mut Splicer, before: [Vec<u8>; 4]) {
    for (now, before) in splicer.hardware.iter_mut().zip(before) {
        if before.len() > 2 {
            *now = before;
        }
    }
}

/// Whether the call is of this connection.
fn of(call: &Kept, conn: u8) -> bool {
    match call {
        Kept::Open(own) | Kept::Close(own) | Kept::Message(own, _) => *own == conn,
        Kept::Tick(..) => false,
    }
}
