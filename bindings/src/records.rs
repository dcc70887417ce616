//! The records in an output buffer, and the numbers that stand in them.

use crate::{HEADER, MARK};

/// MessageIDs of the records that the core writes, and of the requests that it reads.
pub mod message_id {
    /// No data.
    pub const GENERAL_RESPONSE: u16 = 0x0000;
    /// Read by the core.
    pub const INIT_REQUEST: u16 = 0x0001;
    /// Revision_Num 2, ChannelName 32.
    pub const INIT_RESPONSE: u16 = 0x0002;
    /// Read by the core.
    pub const EXTENDED_DATA_REQUEST: u16 = 0x0003;
    /// SessionID 4; with 100 a descriptor of 16.
    pub const EXTENDED_DATA_RESPONSE: u16 = 0x0004;
    /// Read by the core.
    pub const ALIVE_REQUEST: u16 = 0x0005;
    /// State 4, SessionID 4, Seconds 4, MicroSeconds 4.
    pub const ALIVE_RESPONSE: u16 = 0x0006;
    /// Read by the core.
    pub const SPLICE_REQUEST: u16 = 0x0007;
    /// SessionID 4.
    pub const SPLICE_RESPONSE: u16 = 0x0008;
    /// SessionID 4, SpliceTypeFlag 1, Bitrate 4, PlayedDuration 4.
    pub const SPLICE_COMPLETE_RESPONSE: u16 = 0x0009;
    /// Seconds 4, MicroSeconds 4, the section; its Result is 0xFFFF, as it is no answer.
    pub const CUE_REQUEST: u16 = 0x000C;
    /// Read by the core, and not answered.
    pub const CUE_RESPONSE: u16 = 0x000D;
    /// Read by the core: no data.
    pub const GET_CONFIG_REQUEST: u16 = 0x000A;
    /// ChannelName 32, Hardware_Config with its Length 2, program map section.
    pub const GET_CONFIG_RESPONSE: u16 = 0x000B;
    /// Read by the core.
    pub const ABORT_REQUEST: u16 = 0x000E;
    /// SessionID 4.
    pub const ABORT_RESPONSE: u16 = 0x000F;
}

/// Result codes of J.280, Appendix I, that documents 01 and 02 use.
pub mod result {
    /// Successful.
    pub const SUCCESSFUL: u16 = 100;
    /// Revision_Num is not 2.
    pub const INVALID_VERSION: u16 = 102;
    /// The connection is not initialised.
    pub const ACCESS_DENIED: u16 = 103;
    /// Another ChannelName.
    pub const UNKNOWN_CHANNEL: u16 = 104;
    /// Evicted, not started, or another waits with this start.
    pub const COLLISION: u16 = 109;
    /// Less than 3 s ahead.
    pub const TOO_LATE: u16 = 112;
    /// No place for another waiting session.
    pub const QUEUE_FULL: u16 = 114;
    /// Ended by an abort or a close.
    pub const ABORTED: u16 = 116;
    /// A section of cues that is bad.
    pub const INVALID_CUE: u16 = 117;
    /// A MessageID that is not read.
    pub const UNKNOWN_MESSAGE: u16 = 120;
    /// A SessionID that is held already, or is not held.
    pub const INVALID_SESSION: u16 = 121;
    /// Not readable.
    pub const INVALID_DATA: u16 = 123;
    /// Ended while covered, or ended at once by an equal one.
    pub const OVERRIDDEN: u16 = 125;
}

/// A record in an output buffer: whom it is for, what it says, and the message as it is sent.
#[derive(Clone, Copy, Debug, PartialEq, Eq)]
pub struct Record<'o> {
    /// The connection it is for.
    pub connection: u8,
    /// One of [`message_id`].
    pub message_id: u16,
    /// One of [`result`]; 0xFFFF of a Cue_Request.
    pub result: u16,
    /// The message's data; numbers in it are big-endian.
    pub data: &'o [u8],
    /// The whole message, its header included.
    pub message: &'o [u8],
}

/// The records of what a call wrote, one behind the other.
pub fn records(written: &[u8]) -> Records<'_> {
    Records { rest: written }
}

/// Walks the records; see [`records`].
#[derive(Clone, Debug)]
pub struct Records<'o> {
    rest: &'o [u8],
}

impl<'o> Records<'o> {
    /// The bytes that were not walked yet. None are left behind the last record of a call.
    pub fn rest(&self) -> &'o [u8] {
        self.rest
    }
}

impl<'o> Iterator for Records<'o> {
    type Item = Record<'o>;

    fn next(&mut self) -> Option<Record<'o>> {
        let [0x52, connection, message @ ..] = self.rest else {
            return None;
        };
        let (header, _) = message.split_first_chunk::<HEADER>()?;
        let half = |at: usize| u16::from_be_bytes([header[at], header[at + 1]]);
        let message = message.get(..HEADER + usize::from(half(2)))?;
        self.rest = &self.rest[MARK + message.len()..];
        Some(Record {
            connection: *connection,
            message_id: half(0),
            result: half(4),
            data: &message[HEADER..],
            message,
        })
    }
}

/// Once at the end, or at bytes that are no record, it gives nothing more.
impl core::iter::FusedIterator for Records<'_> {}
