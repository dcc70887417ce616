//! What a splicer is between its calls, and the rules about it by name: the list below is their order in 01 and 02.
//! Each rule stands in its module and reaches the others through the list, so that a test may put one of them aside.
//! The sessions lie in an unordered list, and every question scans the whole list.

use crate::bytes::{Record, What};
use crate::requests::{Reading, Request, SpliceFields};
use crate::sections::{Given, Sections};

/// "output buffer below 4,096 bytes" is refused with 2.
pub const ROOM: usize = 4_096;
/// "MessageSize above 4,088" is refused with 4.
pub const LARGEST_SIZE: usize = 4_088;

/// "Held means waiting, on air or covered."
#[derive(Clone, Copy, Debug, PartialEq, Eq)]
pub enum State {
    Waiting,
    OnAir,
    Covered,
}

/// An accepted session that has not ended. All times are in ninths.
#[derive(Clone, Debug, PartialEq, Eq)]
pub struct Session {
    pub conn: u8,
    pub id: u32,
    pub prior: u32,
    pub start: u64,
    pub end: u64,
    pub access: u8,
    pub overrides: bool,
    /// Its request's muxpriority value, all its life (02, CR 5).
    pub mux: u8,
    /// Its request's SpliceEventID, all its life (02, CR 8).
    pub event: u32,
    pub state: State,
    /// Time on air before `since`.
    pub played: u64,
    /// When it last went on air or was covered.
    pub since: u64,
}

/// 02, CR 8: "connection, SessionID, SpliceEventID, result, PlayedDuration".
#[derive(Clone, Copy, Debug, PartialEq, Eq)]
pub struct Ended {
    pub conn: u8,
    pub id: u32,
    pub event: u32,
    pub result: u16,
    pub played: u32,
}

/// An end's record: SpliceComplete with its flag, or a Splice_Response.
#[derive(Clone, Copy, Debug, PartialEq, Eq)]
pub enum By {
    Complete(u8),
    Splice,
}

/// A row of the desk's page (02, CR 8). "unused rows marked empty, numbers 0": none.
pub type Row = Option<Ended>;

/// What is due next: its instant, and Seconds and MicroSeconds of the first tick that reaches it, if one does.
pub type Due = (u64, Option<(u32, u32)>);

/// 02, CR 6: "the caller lends both sections, the primary's and the insertion's".
#[derive(Clone, Copy, Debug, Default, PartialEq, Eq)]
pub struct Maps<'m> {
    pub primary: &'m [u8],
    pub insertion: &'m [u8],
}

impl Maps<'_> {
    /// "The card program lends empty sections."
    pub const EMPTY: Maps<'static> = Maps { primary: &[], insertion: &[] };
}

/// "A splicer is what fresh and the calls since have given".
#[derive(Clone)]
pub struct Splicer {
    pub name: [u8; 32],
    pub clock: u64,
    pub open: [bool; 4],
    pub initialised: [bool; 4],
    pub sessions: Vec<Session>,
    /// 02, CR 11: the places that the last call's acceptance shifts.
    pub moved: usize,
    /// 02, CR 13: the time on the primary channel, in ninths.
    pub primary: u64,
    /// 02, CR 6: each connection's Hardware_Config, Length included.
    pub hardware: [Vec<u8>; 4],
    /// 02, CR 8: the last 16 ended sessions, the newest last.
    pub ended: Vec<Ended>,
    /// The rules it goes by.
    pub rules: &'static Rules,
}

/// What is done with a message before it is read: 01's answers 1 to 4.
#[derive(Clone, Copy, Debug, PartialEq, Eq)]
pub enum First {
    Silence,
    General(u16),
    Read,
}

pub type Out<'o> = &'o mut Vec<Record>;
/// The records and the bytes consumed.
pub type Said = (Vec<Record>, usize);

macro_rules! table {
    ($($(#[$doc:meta])* $name:ident[$($by:tt)+]($($arg:ident: $kind:ty),*) $(-> $out:ty)?;)*) => {
        /// The rules about a splicer, by name, and those that read messages and sections.
        #[derive(Clone, Copy)]
        pub struct Rules {
            pub reading: Reading,
            pub sections: Sections,
            $($(#[$doc])* pub $name: fn($($by)+ Splicer, $($kind),*) $(-> $out)?,)*
        }

        impl Splicer {
            $($(#[$doc])* pub fn $name($($by)+ self, $($arg: $kind),*) $(-> $out)? {
                (self.rules.$name)(self, $($arg),*)
            })*
        }
    };
}

table! {
    // "Calls and house numbers"
    open[&mut](conn: u8) -> Result<(), u8>;
    /// What a good open does.
    opened[&mut](conn: u8);
    close[&mut](conn: u8, room: usize) -> Result<Vec<Record>, u8>;
    /// What a good close does behind the ends.
    closed[&mut](conn: u8);
    message_with[&mut](conn: u8, bytes: &[u8], maps: &Maps, room: usize) -> Result<Said, u8>;
    tick[&mut](seconds: u32, micros: u32, room: usize) -> Result<Vec<Record>, u8>;
    /// Its house number, behind 2.
    tick_refused[&](seconds: u32, micros: u32) -> Option<u8>;
    // "Answering a message, first that applies"
    answer[&mut](conn: u8, id: u16, data: &[u8], maps: &Maps, out: Out);
    first_answer[&](conn: u8, id: u16) -> First;
    read_and_obey[&mut](conn: u8, id: u16, data: &[u8], maps: &Maps, out: Out);
    obey[&mut](conn: u8, request: Request, maps: &Maps, out: Out);
    init[&mut](conn: u8, revision: u16, name: &[u8; 32], hardware: &[u8], out: Out);
    same_name[&](name: &[u8; 32]) -> bool;
    alive[&](conn: u8) -> What;
    splice[&mut](conn: u8, fields: &SpliceFields, out: Out);
    /// b to f, as a number.
    splice_result[&](conn: u8, fields: &SpliceFields) -> u16;
    /// b.
    wrong_number[&](conn: u8, fields: &SpliceFields) -> bool;
    /// c.
    too_late[&](conn: u8, fields: &SpliceFields) -> bool;
    /// d.
    collides[&](conn: u8, fields: &SpliceFields) -> bool;
    /// e.
    queue_full[&](conn: u8, fields: &SpliceFields) -> bool;
    /// f.
    accept[&mut](conn: u8, fields: &SpliceFields, out: Out);
    start_of[&](conn: u8, fields: &SpliceFields) -> u64;
    evict[&mut](start: u64, access: u8, out: Out);
    // "Instants"
    work_through[&mut](until: u64, out: Out);
    next_instant[&](until: u64) -> Option<u64>;
    instant[&mut](time: u64, out: Out);
    ends[&mut](time: u64, out: Out);
    ending[&](time: u64) -> Vec<Session>;
    end[&mut](session: &Session, time: u64, out: Out);
    on_air_again[&mut](time: u64) -> bool;
    time_on_air[&](session: &Session, time: u64) -> u64;
    start[&mut](session: &Session, time: u64, out: Out);
    may_start[&](session: &Session) -> bool;
    fail[&mut](session: &Session, out: Out);
    /// 02, CR 4.
    end_equal[&mut](session: &Session, time: u64, out: Out);
    go_on_air[&mut](session: &Session, time: u64);
    followers[&](of: &Session) -> Vec<Session>;
    end_followers[&mut](of: &Session, result: u16, out: Out);
    abort[&mut](conn: u8, id: u32, out: Out);
    aborted_end[&mut](session: &Session, out: Out);
    end_all_of[&mut](conn: u8, out: Out);
    /// 02, CR 5: the value of the one on air.
    mux[&]() -> u8;
    /// 02, CR 6.
    keep_hardware[&mut](conn: u8, result: u16, hardware: &[u8]);
    /// Whether the insertion's map section is the one on air.
    insertion[&]() -> bool;
    config[&mut](conn: u8, maps: &Maps, out: Out);
    /// 02, CR 7.
    cue[&mut](given: &Given, room: usize) -> Result<Vec<Record>, u8>;
    cue_refused[&](given: &Given, room: usize) -> Option<u8>;
    /// The connections that it goes to.
    cue_to[&]() -> Vec<u8>;
    /// 02, CR 8.
    remember[&mut](session: &Session, by: By, result: u16, played: u32);
    unshown[&](session: &Session) -> u32;
    latest_ended[&](conn: u8, id: u32) -> Option<Ended>;
    extended[&mut](conn: u8, id: u32, out: Out);
    page[&](rows: &mut [Row]) -> Result<(), u8>;
    /// 02, CR 13.
    pass[&mut](from: u64, to: u64);
    // What a driver that sleeps reads.
    air[&]() -> Option<Session>;
    due[&]() -> Option<Due>;
    sessions[&]() -> Vec<Session>;
}

/// Questions that several rules ask.
impl Splicer {
    /// The session that this connection holds under this number.
    pub fn held(&self, conn: u8, id: u32) -> Option<&Session> {
        self.sessions.iter().find(|s| s.conn == conn && s.id == id)
    }

    pub fn on_air(&self) -> Option<&Session> {
        self.sessions.iter().find(|s| s.state == State::OnAir)
    }

    /// The waiting sessions.
    pub fn waiting(&self) -> impl Iterator<Item = &Session> {
        self.sessions.iter().filter(|s| s.state == State::Waiting)
    }

    /// The waiting session with this start. There is one at most.
    pub fn waiting_at(&self, start: u64) -> Option<&Session> {
        self.waiting().find(|s| s.start == start)
    }

    /// 02, CR 2: the waiting sessions of each connection.
    pub fn waiting_counts(&self) -> [usize; 4] {
        let mut counts = [0; 4];
        for session in self.waiting() {
            counts[usize::from(session.conn)] += 1;
        }
        counts
    }

    pub fn remove(&mut self, session: &Session) {
        self.sessions.retain(|s| !(s.conn == session.conn && s.id == session.id));
    }
}
