//! Times. Inside, an instant is counted in ninths of a microsecond since 1970-01-01 UTC, as in
//! document 01; outside it is ISO 8601 in UTC, or plain seconds.

use crate::people::utc;
pub use rules::times::{ninths, MICROSECOND as MICRO, SECOND, TICK};

/// How instants are written.
#[derive(Clone, Copy, Default)]
pub struct Clock {
    /// Plain seconds.
    pub raw: bool,
}

impl Clock {
    /// An instant, rounded down to a microsecond.
    pub fn text(self, instant: u64) -> String {
        match self.raw {
            true => seconds(instant),
            false => utc::text(instant / MICRO),
        }
    }

    /// A time of the wire, whose MicroSeconds may be out of range; all ones is no time.
    pub fn wire(self, seconds: u32, micros: u32) -> String {
        match (seconds, micros) {
            (u32::MAX, u32::MAX) => "none".to_string(),
            (_, 0..=999_999) => self.text(ninths(seconds, micros)),
            _ => format!("{seconds}:{micros}"),
        }
    }
}

/// A length of time as seconds, rounded down to a microsecond.
pub fn seconds(length: u64) -> String {
    format!("{}.{:06}", length / SECOND, length % SECOND / MICRO)
}

/// Reads an instant, as `utc::read` does.
pub fn read(text: &str) -> Option<u64> {
    utc::read(text).map(|micros| micros * MICRO)
}

#[cfg(test)]
mod tests {
    use super::*;

    const ISO: Clock = Clock { raw: false };

    #[test]
    fn instants_as_text() {
        let cases = [
            (0, "1970-01-01T00:00:00.000000Z"),
            (1_000_000_000 * SECOND, "2001-09-09T01:46:40.000000Z"),
            (951_782_400 * SECOND + 8, "2000-02-29T00:00:00.000000Z"),
            (951_868_800 * SECOND + 9, "2000-03-01T00:00:00.000001Z"),
            (4_294_967_295 * SECOND, "2106-02-07T06:28:15.000000Z"),
        ];
        for (instant, text) in cases {
            assert_eq!(ISO.text(instant), text);
            assert_eq!(read(text), Some(instant / MICRO * MICRO));
        }
        assert_eq!(Clock { raw: true }.text(9_000_009 * 5), "5.000005");
        assert_eq!(ISO.wire(u32::MAX, u32::MAX), "none");
        assert_eq!(ISO.wire(5, 1_000_000), "5:1000000");
    }

    #[test]
    fn instants_from_people() {
        assert_eq!(read("1000"), Some(1_000 * SECOND));
        assert_eq!(read("1000.5"), Some(1_000 * SECOND + SECOND / 2));
        assert_eq!(read("1970-01-02"), Some(86_400 * SECOND));
        assert_eq!(read("1970-01-01T01:00"), Some(3_600 * SECOND));
        for wrong in [
            "",
            "x",
            "1.1234567",
            "2001-02-29",
            "2001-13-01",
            "2001-01-01T24:00",
            "2001-01-01T10:60",
            "2001-01-01T10:00:60",
            "2001-01-01T10",
            "99999999999",
            "1969-12-31",
            "-5",
        ] {
            assert_eq!(read(wrong), None, "{wrong}");
        }
    }
}
