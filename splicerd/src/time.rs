//! Times for people: microseconds since 1970-01-01 UTC, and spans.

// one file for all that show times
#[allow(dead_code)]
#[path = "../../model/people/utc.rs"]
mod utc;
pub use utc::{text as shown, Shown, SECOND};

/// The last microsecond that the time field holds.
pub const LAST: u64 = (1 << 32) * SECOND - 1;

/// Seconds and MicroSeconds, as a call takes them.
pub fn parts(micros: u64) -> (u32, u32) {
    let micros = micros.min(LAST);
    ((micros / SECOND) as u32, (micros % SECOND) as u32)
}

/// From Seconds and MicroSeconds.
pub fn whole(seconds: u32, micros: u32) -> u64 {
    u64::from(seconds) * SECOND + u64::from(micros)
}

/// 2026-11-16T08:00:00Z, with or without a fraction, or seconds since 1970, with or without one.
pub fn read(text: &str) -> Option<u64> {
    let micros = match text.strip_suffix('Z') {
        None => decimal(text)?,
        Some(text) => {
            let (date, time) = text.split_once('T')?;
            let [year, month, day] = numbers::<3>(date, '-')?;
            let (clock, fraction) = time.split_once('.').map_or((time, String::new()), |(c, f)| (c, format!(".{f}")));
            let [hour, minute, second] = numbers::<3>(clock, ':')?;
            if !(1970..=2106).contains(&year) || !(1..=12).contains(&month) || day < 1 || day > length(year, month) {
                return None;
            }
            if hour > 23 || minute > 59 || second > 59 {
                return None;
            }
            let seconds = (days(year, month, day) * 24 + hour) * 3600 + minute * 60 + second;
            seconds * SECOND + decimal(&format!("0{fraction}"))?
        }
    };
    (micros <= LAST).then_some(micros)
}

/// The same for the name of a file.
pub fn stamp(micros: u64) -> String {
    shown(micros).replace(['-', ':'], "")
}

/// A span: 5s, 1.5s, 500ms, 2m, 1h.
pub fn span(text: &str) -> Option<u64> {
    let units = [("ms", 1000), ("us", 1), ("s", SECOND), ("m", 60 * SECOND), ("h", 3600 * SECOND)];
    let (number, unit) = units.iter().find_map(|(name, unit)| Some((text.strip_suffix(name)?, *unit)))?;
    let parsed = decimal(number)?;
    Some((u128::from(parsed) * u128::from(unit) / u128::from(SECOND)).min(u128::from(u64::MAX)) as u64)
}

/// A number with at most six places behind the point, in millionths.
pub fn decimal(text: &str) -> Option<u64> {
    let (whole, fraction) = text.split_once('.').unwrap_or((text, "0"));
    let digits = |t: &str| !t.is_empty() && t.bytes().all(|b| b.is_ascii_digit());
    if !digits(whole) || !digits(fraction) || fraction.len() > 6 {
        return None;
    }
    let millionths = format!("{fraction:0<6}").parse::<u64>().ok()?;
    whole.parse::<u64>().ok()?.checked_mul(SECOND)?.checked_add(millionths)
}

fn numbers<const N: usize>(text: &str, between: char) -> Option<[u64; N]> {
    let found: Option<Vec<u64>> = text.split(between).map(|part| part.parse().ok()).collect();
    found?.try_into().ok()
}

fn length(year: u64, month: u64) -> u64 {
    match month {
        2 if year % 4 == 0 && (year % 100 != 0 || year % 400 == 0) => 29,
        2 => 28,
        4 | 6 | 9 | 11 => 30,
        _ => 31,
    }
}

/// Days since 1970-01-01, by years of 400 that begin in March.
fn days(year: u64, month: u64, day: u64) -> u64 {
    let year = if month <= 2 { year - 1 } else { year };
    let of_year = (153 * ((month + 9) % 12) + 2) / 5 + day - 1;
    let (era, year) = (year / 400, year % 400);
    era * 146_097 + year * 365 + year / 4 - year / 100 + of_year - 719_468
}

#[cfg(test)]
mod tests {
    use super::*;

    #[test]
    fn times_for_people() {
        // 2026-11-16 08:00 UTC by date(1): 1794816000
        assert_eq!(read("2026-11-16T08:00:00Z"), Some(1_794_816_000 * SECOND));
        assert_eq!(read("2024-02-29T23:59:59.5Z"), Some(1_709_251_199 * SECOND + 500_000));
        assert_eq!(shown(1_709_251_199 * SECOND + 500_000), "2024-02-29T23:59:59.500000Z");
        assert_eq!(shown(0), "1970-01-01T00:00:00.000000Z");
        assert_eq!(read("1000.25"), Some(1_000_250_000));
        for bad in ["2026-02-29T00:00:00Z", "2026-11-16", "x", "1.1234567", "2026-11-16T24:00:00Z", "4294967296", "-1"] {
            assert_eq!(read(bad), None, "{bad}");
        }
    }

    #[test]
    fn times_of_the_time_field() {
        assert_eq!(read("2026-11-16T08:00:00Z"), Some(1_794_816_000 * SECOND));
        assert_eq!(read("1000.25"), Some(1_000_250_000));
        assert_eq!(read("4294967295.999999"), Some(LAST));
        assert_eq!(read("4294967296"), None);
        assert_eq!(stamp(1_709_251_199 * SECOND + 500_000), "20240229T235959.500000Z");
    }

    #[test]
    fn spans() {
        assert_eq!(span("5s"), Some(5 * SECOND));
        assert_eq!(span("1.5s"), Some(1_500_000));
        assert_eq!(span("250ms"), Some(250_000));
        assert_eq!(span("2m"), Some(120 * SECOND));
        assert_eq!(span("7us"), Some(7));
        assert_eq!(span("5"), None);
        assert_eq!(span("s"), None);
    }
}
