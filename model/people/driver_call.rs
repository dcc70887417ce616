//! The calls of a driver, those too that the card program cannot make: the one call type of all comparisons.

use crate::people::card;
use crate::people::cue_call::Given;
use crate::people::record_lines::{hex, Line};
use rules::bytes::Record;
use rules::recall::Asked;
use rules::state::{Maps, Said, Splicer};

#[derive(Clone, Debug, PartialEq, Eq)]
pub enum Call {
    /// Of the engine that only remembers (02, CR 12): its log is cleared.
    Fresh,
    Open(u32),
    Close(u32),
    /// The connection and the bytes read so far.
    Message(u32, Vec<u8>),
    Tick(u32, u32),
    /// A section, a PTS and its instant (02, CR 7); none of the calls of the engine that only remembers.
    Cue(Given),
}

impl From<card::Call> for Call {
    fn from(call: card::Call) -> Call {
        match call {
            card::Call::Open(conn) => Call::Open(conn.into()),
            card::Call::Close(conn) => Call::Close(conn.into()),
            card::Call::Message(conn, bytes) => Call::Message(conn.into(), bytes),
            card::Call::Tick(seconds, micros) => Call::Tick(seconds, micros),
        }
    }
}

/// The two map sections lent to a message (02, CR 6).
#[derive(Clone, Debug, Default, PartialEq, Eq)]
pub struct Sections {
    pub primary: Vec<u8>,
    pub insertion: Vec<u8>,
}

impl Sections {
    pub fn maps(&self) -> Maps<'_> {
        Maps { primary: &self.primary, insertion: &self.insertion }
    }

    /// The longer one's length.
    pub fn longest(&self) -> usize {
        self.primary.len().max(self.insertion.len())
    }
}

/// A call, the length of the output buffer and the sections lent to it.
#[derive(Clone, Debug, PartialEq, Eq)]
pub struct Act {
    pub call: Call,
    pub room: usize,
    pub sections: Sections,
}

impl Act {
    /// With empty sections, as the card program lends them.
    pub fn plain(call: Call, room: usize) -> Act {
        Act { call, room, sections: Sections::default() }
    }

    pub fn line(&self) -> String {
        let room = self.room;
        match &self.call {
            Call::Fresh => "fresh".to_string(),
            Call::Open(conn) => format!("open {conn}"),
            Call::Close(conn) => format!("close {conn}, room {room}"),
            Call::Message(conn, bytes) => {
                let Sections { primary, insertion } = &self.sections;
                let lent = format!("room {room}, sections {} and {}", primary.len(), insertion.len());
                format!("message {conn}, {lent}: {}", short(bytes))
            }
            Call::Tick(seconds, micros) => format!("tick {seconds} {micros}, room {room}"),
            Call::Cue(given) => format!("{}, room {room}", given.line()),
        }
    }

    /// Makes the call: its records and the bytes consumed, or its house number. A connection is kept in a byte here; 01 knows
    /// only "above 3".
    pub fn made(&self, splicer: &mut Splicer) -> Result<Said, u8> {
        let byte = |conn: &u32| (*conn).min(255) as u8;
        let alone = |out: Vec<Record>| (out, 0);
        match &self.call {
            Call::Fresh => panic!("fresh makes a splicer"),
            Call::Open(conn) => splicer.open(byte(conn)).map(|()| Said::default()),
            Call::Close(conn) => splicer.close(byte(conn), self.room).map(alone),
            Call::Message(conn, bytes) => splicer.message_with(byte(conn), bytes, &self.sections.maps(), self.room),
            Call::Tick(seconds, micros) => splicer.tick(*seconds, *micros, self.room).map(alone),
            Call::Cue(given) => splicer.cue(given, self.room).map(alone),
        }
    }

    /// As the engine that only remembers gets it.
    pub fn asked(&self) -> Asked<'_> {
        match &self.call {
            Call::Fresh => Asked::Fresh,
            Call::Open(conn) => Asked::Open(*conn),
            Call::Close(conn) => Asked::Close(*conn),
            Call::Message(conn, read) => Asked::Message(*conn, read, self.sections.maps()),
            Call::Tick(seconds, micros) => Asked::Tick(*seconds, *micros),
            Call::Cue(_) => panic!("a cue is none of its calls"),
        }
    }
}

/// At most 200 bytes as digits.
pub fn short(bytes: &[u8]) -> String {
    match bytes.len() {
        0 => "nothing".to_string(),
        1..=200 => hex(bytes),
        length => format!("{} ... ({length} bytes)", hex(&bytes[..200])),
    }
}
