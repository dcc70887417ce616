//! 01, "Bytes", its last paragraph: times.

/// No session: "PriorSession 0xFFFFFFFF", "State 1 and 0xFFFFFFFF". All ones in a time: none (02, CR 7).
pub const NONE: u32 = 0xFFFF_FFFF;
/// "in ninths of a microsecond, a second is 9,000,000, a microsecond 9, a tick 100".
pub const SECOND: u64 = 9_000_000;
pub const MICROSECOND: u64 = 9;
pub const TICK: u64 = 100;
/// The first ninth that the time field cannot name (02, CR 7 and CR 9).
pub const HORIZON: u64 = (1 << 32) * SECOND;

/// A wire time in ninths. "The clock and all instants are kept in ninths."
pub fn ninths(seconds: u32, micros: u32) -> u64 {
    u64::from(seconds) * SECOND + u64::from(micros) * MICROSECOND
}

/// A time in ninths on the wire, "microseconds rounded down".
pub fn wire(time: u64) -> (u32, u32) {
    ((time / SECOND) as u32, (time % SECOND / MICROSECOND) as u32)
}
