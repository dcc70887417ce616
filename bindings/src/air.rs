//! Who is on air, and when something will happen: until when a driver may sleep.

use crate::{door, Splicer};

/// The session on air. Times are in ninths of a microsecond.
#[derive(Clone, Copy, Debug, PartialEq, Eq, Hash)]
pub struct Air {
    /// The connection.
    pub connection: u32,
    /// SessionID.
    pub session: u32,
    /// SpliceEventID, as its Splice_Request had it.
    pub event: u32,
    /// AccessType.
    pub access: u8,
    /// What it asked of the multiplexer, as [`Splicer::mux`] has it.
    pub mux: u8,
    /// Its start, since 1970-01-01 00:00 UTC.
    pub start: u64,
    /// Its end, since then.
    pub end: u64,
    /// Its time on air so far, up to the clock.
    pub played: u64,
}

/// When a tick would next do anything.
#[derive(Clone, Copy, Debug, PartialEq, Eq, Hash)]
pub struct Due {
    /// The instant, in ninths of a microsecond since 1970-01-01 00:00 UTC.
    pub instant: u64,
    /// Seconds and MicroSeconds of the first tick that reaches it; none, if no tick's time does.
    pub tick: Option<(u32, u32)>,
}

impl Splicer {
    /// The session on air, if one is. It only reads. It changes with starts, ends, aborts and closes: a
    /// covered session that is on air again writes no record.
    ///
    /// ```
    /// let (channel, _) = splicer::Splicer::fresh(&splicer::name(b"CH1"));
    /// assert_eq!(channel.air(), None);
    /// ```
    pub fn air(&self) -> Option<Air> {
        let mut row = [0; 9];
        // SAFETY: the state came from fresh and is lent for reading; the row is a local, so apart.
        unsafe { door::air(self.words.as_ptr(), self.bytes.as_ptr(), row.as_mut_ptr()) };
        let [some, connection, session, start, end, played, event, access, mux] = row;
        // The core's words are numbers of one, two or four bytes of a request, and four connections.
        (some == 1).then_some(Air {
            connection: connection as u32,
            session: session as u32,
            event: event as u32,
            access: access as u8,
            mux: mux as u8,
            start,
            end,
            played,
        })
    }

    /// When a tick would next do anything, if one would. It only reads. A tick before `tick` writes
    /// nothing and leaves this as it is; a tick at it or later is good, and writes. To be read before
    /// every sleep: other calls than ticks can move it.
    ///
    /// ```
    /// let (channel, _) = splicer::Splicer::fresh(&splicer::name(b"CH1"));
    /// assert_eq!(channel.due(), None);
    /// ```
    pub fn due(&self) -> Option<Due> {
        let mut row = [0; 4];
        // SAFETY: the state came from fresh and is lent for reading; the row is a local, so apart.
        unsafe { door::due(self.words.as_ptr(), self.bytes.as_ptr(), row.as_mut_ptr()) };
        let [kind, instant, seconds, micros] = row;
        let tick = (kind == 2).then_some((seconds as u32, micros as u32));
        (kind != 0).then_some(Due { instant, tick })
    }
}
