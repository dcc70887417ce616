//! What stands in a record, by its fields.

use crate::{message_id, texts, Record, Refusal, NAME};

/// The fields of a record's data.
#[derive(Clone, Copy, Debug, PartialEq, Eq)]
#[non_exhaustive]
pub enum Says<'o> {
    /// General_Response: nothing but its result.
    General,
    /// Init_Response.
    Init {
        /// Revision_Num.
        revision: u16,
        /// The configured ChannelName, zeros behind its end.
        name: &'o [u8; NAME],
    },
    /// Alive_Response.
    Alive {
        /// 1: on the primary channel, 2: on an insertion.
        state: u32,
        /// The SessionID on air, of any connection; 0xFFFFFFFF with state 1.
        session: u32,
        /// Since 1970-01-01 UTC.
        seconds: u32,
        /// Below 1,000,000.
        micros: u32,
    },
    /// Splice_Response.
    Splice {
        /// SessionID.
        session: u32,
    },
    /// SpliceComplete_Response.
    Complete {
        /// SessionID.
        session: u32,
        /// SpliceTypeFlag. 0: splice-in, a start; 1: splice-out, an end.
        flag: u8,
        /// Always 0 of this core.
        bitrate: u32,
        /// PlayedDuration: time on air in ticks of 90 kHz.
        played: u32,
    },
    /// Abort_Response.
    Abort {
        /// SessionID.
        session: u32,
    },
    /// Cue_Request.
    Cue {
        /// Since 1970-01-01 UTC; 0xFFFFFFFF in both without a pts_time or past the time field. Test micros:
        /// 0xFFFFFFFF seconds alone are a time.
        seconds: u32,
        /// Below 1,000,000, or 0xFFFFFFFF.
        micros: u32,
        /// The section, as it came.
        section: &'o [u8],
    },
    /// ExtendedData_Response of a session whose end is kept.
    Ended {
        /// SessionID.
        session: u32,
        /// SpliceEventID, as its Splice_Request had it.
        event: u32,
        /// The result of its end.
        result: u16,
        /// Its time on air in ticks of 90 kHz.
        played: u32,
    },
    /// ExtendedData_Response where none is kept.
    NotKept {
        /// SessionID.
        session: u32,
    },
}

impl Refusal {
    /// Why, in words.
    pub const fn text(self) -> &'static str {
        texts::refusal(self.number() as u32)
    }
}

impl<'o> Record<'o> {
    /// Its fields, if it is a record of the core's list and has its kind's size.
    pub fn says(&self) -> Option<Says<'o>> {
        let word = |at: usize| {
            self.data[at..]
                .first_chunk()
                .map(|w| u32::from_be_bytes(*w))
        };
        Some(match (self.message_id, self.data.len()) {
            (message_id::GENERAL_RESPONSE, 0) => Says::General,
            (message_id::INIT_RESPONSE, 34) => Says::Init {
                revision: u16::from_be_bytes([self.data[0], self.data[1]]),
                name: self.data[2..].first_chunk()?,
            },
            (message_id::ALIVE_RESPONSE, 16) => Says::Alive {
                state: word(0)?,
                session: word(4)?,
                seconds: word(8)?,
                micros: word(12)?,
            },
            (message_id::SPLICE_RESPONSE, 4) => Says::Splice { session: word(0)? },
            (message_id::SPLICE_COMPLETE_RESPONSE, 13) => Says::Complete {
                session: word(0)?,
                flag: self.data[4],
                bitrate: word(5)?,
                played: word(9)?,
            },
            (message_id::ABORT_RESPONSE, 4) => Says::Abort { session: word(0)? },
            (message_id::CUE_REQUEST, 8..) => Says::Cue {
                seconds: word(0)?,
                micros: word(4)?,
                section: &self.data[8..],
            },
            (message_id::EXTENDED_DATA_RESPONSE, 20) => Says::Ended {
                session: word(0)?,
                event: word(10)?,
                result: u16::from_be_bytes([self.data[14], self.data[15]]),
                played: word(16)?,
            },
            (message_id::EXTENDED_DATA_RESPONSE, 4) => Says::NotKept { session: word(0)? },
            _ => return None,
        })
    }
}
