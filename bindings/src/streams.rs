//! The streams that a Splice_Request with ServiceID 0xFFFF names itself: read from its bytes, and
//! written for a bench.

use crate::door;

/// The most streams of a list.
pub const STREAMS: usize = 16;
/// Words of a stream's row.
pub const STREAM_WORDS: usize = 8;
/// Bytes that all structures of a list can keep.
pub const KEPT: usize = 3744;

/// A stream of a list. 0xFFFFFFFF is an unknown rate and 0xFFFF an unknown resolution.
#[derive(Clone, Copy, Debug, PartialEq, Eq)]
pub struct Stream<'s> {
    /// At most 0x1FFF.
    pub pid: u16,
    /// At most 0xFFFE.
    pub stream_type: u16,
    /// AvgBitrate.
    pub avg_bitrate: u32,
    /// MaxBitrate.
    pub max_bitrate: u32,
    /// MinBitrate.
    pub min_bitrate: u32,
    /// HResolution.
    pub h_resolution: u16,
    /// VResolution.
    pub v_resolution: u16,
    /// The bytes behind the structure's first 21, at most 234.
    pub kept: &'s [u8],
}

/// A list of streams with its PcrPID: `struct splicer_streams` of the header.
#[derive(Clone, PartialEq, Eq)]
#[repr(C)]
pub struct Streams {
    count: u64,
    pcr_pid: u64,
    row: [u64; STREAMS * STREAM_WORDS],
    kept: [u8; KEPT],
}

// The numbers that the header asserts of its struct.
const _: () = assert!(size_of::<Streams>() == 4784);
const _: () = assert!(core::mem::offset_of!(Streams, pcr_pid) == 8);
const _: () = assert!(core::mem::offset_of!(Streams, row) == 16);
const _: () = assert!(core::mem::offset_of!(Streams, kept) == 1040);

impl Streams {
    /// A list without streams.
    pub const fn new(pcr_pid: u16) -> Streams {
        Streams {
            count: 0,
            pcr_pid: pcr_pid as u64,
            row: [0; STREAMS * STREAM_WORDS],
            kept: [0; KEPT],
        }
    }

    /// The list in bytes that begin with PcrPID (behind the first 18 of a request's data), and the
    /// bytes that it takes. None if a count or a structure is bad.
    pub fn read(bytes: &[u8]) -> Option<(Streams, usize)> {
        let mut list = Streams::new(0);
        let words = (&raw mut list).cast::<u64>();
        let kept = list.kept.as_mut_ptr();
        // SAFETY: the struct begins with its 130 words, and `kept` stands behind them.
        let taken = unsafe { door::read_streams(bytes.as_ptr(), bytes.len(), words, kept) };
        (taken != 0).then_some((list, taken))
    }

    /// The same bytes, and how many. None if the list could not be read back or `out` is too
    /// short: then it stays as it was. Bytes behind those written stay.
    pub fn write<'o>(&self, out: &'o mut [u8]) -> Option<&'o [u8]> {
        let words = (&raw const *self).cast::<u64>();
        let (at, room) = (out.as_mut_ptr(), out.len());
        // SAFETY: the struct begins with its 130 words; `out` is lent for writing, so it is apart.
        let size = unsafe { door::write_streams(words, self.kept.as_ptr(), at, room) };
        (size != 0).then(|| &out[..size])
    }

    /// PcrPID.
    pub const fn pcr_pid(&self) -> u16 {
        self.pcr_pid as u16
    }

    /// Puts a stream behind the last. False, and nothing is changed, if there are 16 or it keeps more
    /// than 234 bytes.
    pub fn push(&mut self, stream: &Stream) -> bool {
        let at = self.count as usize;
        if at == STREAMS || stream.kept.len() > KEPT / STREAMS {
            return false;
        }
        let from: usize = self.iter().map(|s| s.kept.len()).sum();
        self.kept[from..from + stream.kept.len()].copy_from_slice(stream.kept);
        let row = [
            stream.pid.into(),
            stream.stream_type.into(),
            stream.avg_bitrate.into(),
            stream.max_bitrate.into(),
            stream.min_bitrate.into(),
            stream.h_resolution.into(),
            stream.v_resolution.into(),
            stream.kept.len() as u64,
        ];
        self.row[at * STREAM_WORDS..][..STREAM_WORDS].copy_from_slice(&row);
        self.count += 1;
        true
    }

    /// The streams, in the order of the list.
    pub fn iter(&self) -> impl Iterator<Item = Stream<'_>> {
        let rows = self.row.chunks_exact(STREAM_WORDS);
        rows.take(self.count as usize)
            .scan(&self.kept[..], |left, row| {
                let (kept, rest) = left.split_at(row[7] as usize);
                *left = rest;
                Some(Stream {
                    pid: row[0] as u16,
                    stream_type: row[1] as u16,
                    avg_bitrate: row[2] as u32,
                    max_bitrate: row[3] as u32,
                    min_bitrate: row[4] as u32,
                    h_resolution: row[5] as u16,
                    v_resolution: row[6] as u16,
                    kept,
                })
            })
    }
}
