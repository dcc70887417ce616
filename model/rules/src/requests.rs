//! A message of 01's list, or of 02's, read; and the names of the rules that read it. The rules themselves stand in
//! `reading`, `descriptors` and `streams`, and reach one another through this table.

/// A message of 01's list, or of 02's, read. "A parsed message is one of its kinds".
#[rustfmt::skip]
#[derive(Clone, Debug, PartialEq, Eq)]
pub enum Request {
    /// With its Hardware_Config, Length included (02, CR 6).
    Init { revision: u16, name: [u8; 32], hardware: Vec<u8> },
    Alive,
    Splice(SpliceFields),
    Abort { id: u32 },
    /// GetConfig_Request (02, CR 6).
    Config,
    /// ExtendedData_Request for the default type (02, CR 8).
    Extended { id: u32 },
}

/// The fields of a Splice_Request that have an effect. Of the ServiceID it matters only whether it is
/// 0xFFFF: then the PIDs stand in the request (02, CR 1).
#[derive(Clone, Debug, Default, PartialEq, Eq)]
pub struct SpliceFields {
    pub id: u32,
    /// "a Splice_Request's start is in turn either timed or linked": 0xFFFFFFFF is timed.
    pub prior: u32,
    pub seconds: u32,
    pub micros: u32,
    pub duration: u32,
    /// It decides nothing; the session carries it all its life (02, CR 8).
    pub event: u32,
    pub access: u8,
    pub overrides: u8,
    /// What its muxpriority_descriptors ask of the multiplexer (02, CR 5).
    pub mux: u8,
    /// The separate PIDs. They have no effect on any check.
    pub streams: Option<Streams>,
}

/// A splice_elementary_stream() structure (02, CR 1). The fields are wide, as a list to be written may have
/// numbers that do not fit theirs.
#[derive(Clone, Debug, Default, PartialEq, Eq)]
pub struct Stream {
    pub pid: u64,
    pub kind: u64,
    pub average: u64,
    pub highest: u64,
    pub lowest: u64,
    pub width: u64,
    pub height: u64,
    /// "Bytes behind its first 21 are kept unread."
    pub kept: Vec<u8>,
}

/// PcrPID and the structures in their order.
#[derive(Clone, Debug, Default, PartialEq, Eq)]
pub struct Streams {
    pub pcr_pid: u64,
    pub list: Vec<Stream>,
}

/// What follows the ServiceID, or with ServiceID 0xFFFF the structures: Duration 4, SpliceEventID 4,
/// PostBlack 4, AccessType 1, OverridePlaying 1, ReturnToPriorChannel 1, then descriptors.
pub struct Tail<'d> {
    pub bytes: &'d [u8],
    pub streams: Option<Streams>,
}

/// Why a message is not readable, in words.
pub type Why = &'static str;
pub type Read = Result<Request, Why>;
/// A descriptor's tag, what its length counts, and what is behind it.
pub type Formed<'d> = Result<(u8, &'d [u8], &'d [u8]), Why>;

macro_rules! table {
    ($($(#[$doc:meta])* $name:ident $(<$life:lifetime>)? ($($arg:ident: $kind:ty),*) -> $out:ty;)*) => {
        /// The rules that read a message, by name.
        #[derive(Clone, Copy)]
        pub struct Reading {
            $($(#[$doc])* pub $name: $(for<$life>)? fn(&Reading, $($kind),*) -> $out,)*
        }

        impl Reading {
            $($(#[$doc])* pub fn $name $(<$life>)? (&self, $($arg: $kind),*) -> $out {
                (self.$name)(self, $($arg),*)
            })*
        }
    };
}

table! {
    /// 5. "Not readable".
    read(id: u16, data: &[u8]) -> Read;
    read_init(data: &[u8]) -> Read;
    read_alive(data: &[u8]) -> Read;
    read_splice(data: &[u8]) -> Read;
    read_abort(data: &[u8]) -> Read;
    /// Where a Splice_Request's Duration stands, and what follows.
    tail<'d>(data: &'d [u8]) -> Result<Tail<'d>, Why>;
    /// The fields in these places.
    fields(data: &[u8], tail: Tail<'_>) -> SpliceFields;
    /// The values that a Splice_Request may have; its ReturnToPriorChannel comes beside.
    check(fields: &SpliceFields, returns: u8) -> Result<(), Why>;
    /// The form of the descriptor in front.
    formed<'d>(bytes: &'d [u8]) -> Formed<'d>;
    /// 02, CR 1: the list in front, and the bytes that it takes.
    streams(bytes: &[u8]) -> Result<(Streams, usize), Why>;
    /// One structure, and its Length.
    stream(bytes: &[u8]) -> Result<(Stream, usize), Why>;
    /// 02, CR 5: whether it is a muxpriority_descriptor.
    is_mux(tag: u8, body: &[u8]) -> bool;
    mux_value(body: &[u8]) -> Result<u8, Why>;
    /// The value of a request with these descriptors.
    mux_of(bytes: &[u8]) -> Result<u8, Why>;
    /// 02, CR 6.
    hardware(data: &[u8]) -> Result<Vec<u8>, Why>;
    read_config(data: &[u8]) -> Read;
    /// 02, CR 8.
    read_extended(data: &[u8]) -> Read;
}
