//! The page of what ended lately.

use crate::{door, Refusal, Splicer, ENDED, ROWS};

/// One of the last 16 sessions that ended. `kept` is 1; in a row that is unused it is 0, and so are all
/// the others.
#[derive(Clone, Copy, Debug, Default, PartialEq, Eq, Hash)]
#[repr(C)]
pub struct Row {
    /// 1, or 0 in a row that is unused.
    pub kept: u32,
    /// The connection.
    pub connection: u32,
    /// SessionID.
    pub session: u32,
    /// SpliceEventID, as its Splice_Request had it.
    pub event: u32,
    /// The result of its end: 100, 109, 116 or 125.
    pub result: u32,
    /// Its time on air in ticks of 90 kHz, rounded down, also where its record shows none.
    pub played: u32,
}

// The number that the header asserts of its struct.
const _: () = assert!(size_of::<Row>() == 24);

impl Splicer {
    /// The last 16 sessions that ended, of all connections, from the newest down: row 0 is the one whose
    /// end was written last. Refused: 16, for other than sixteen rows; then no row is written. It only
    /// reads. A close and an open drop nothing; fresh has none.
    pub fn ended(&self, rows: &mut [Row]) -> Result<(), Refusal> {
        let (kept, page) = (&self.words[ENDED..], rows.as_mut_ptr());
        // SAFETY: any words may be handed in; `rows` is lent for writing, so apart from them.
        let number = unsafe { door::ended(kept.as_ptr(), kept.len(), page, rows.len()) };
        door::numbered(number)
    }

    /// The same, the unused ones as none.
    pub fn rows(&self) -> [Option<Row>; ROWS] {
        let mut rows = [Row::default(); ROWS];
        let sixteen = self.ended(&mut rows);
        debug_assert_eq!(sixteen, Ok(()));
        rows.map(|row| (row.kept == 1).then_some(row))
    }
}
