//! Times as people write and read them: ISO 8601 in UTC, or seconds; inside, microseconds since 1970-01-01. It stands by itself: the
//! second program, the desk and `splicerd` take this one file.

use std::fmt;

pub const SECOND: u64 = 1_000_000;

/// A time as it is shown everywhere.
pub struct Shown(pub u64);

impl fmt::Display for Shown {
    fn fmt(&self, f: &mut fmt::Formatter<'_>) -> fmt::Result {
        let (micros, second) = (self.0 % SECOND, self.0 / SECOND);
        let (year, month, date) = civil(second / 86_400);
        let of_day = second % 86_400;
        // digits by hand: a log has a time or two in each line
        let mut text = *b"0000-00-00T00:00:00.000000Z";
        let parts = [(0, 4, year), (5, 2, month), (8, 2, date), (11, 2, of_day / 3_600), (14, 2, of_day / 60 % 60)];
        for (at, many, number) in parts.into_iter().chain([(17, 2, of_day % 60), (20, 6, micros)]) {
            digits(&mut text[at..at + many], number);
        }
        f.write_str(std::str::from_utf8(&text).unwrap_or_default())
    }
}

/// A number's last digits.
fn digits(to: &mut [u8], mut number: u64) {
    for digit in to.iter_mut().rev() {
        *digit = b'0' + (number % 10) as u8;
        number /= 10;
    }
}

pub fn text(micros: u64) -> String {
    Shown(micros).to_string()
}

/// Year, month and day of a day since 1970-01-01, in the Gregorian calendar. Years are counted from
/// March, in eras of 400, so that the leap day is the last.
fn civil(day: u64) -> (u64, u64, u64) {
    let day = day + 719_468;
    let (era, of_era) = (day / 146_097, day % 146_097);
    let year = (of_era - of_era / 1_460 + of_era / 36_524 - of_era / 146_096) / 365;
    let of_year = of_era - (365 * year + year / 4 - year / 100);
    let from_march = (5 * of_year + 2) / 153;
    let date = of_year - (153 * from_march + 2) / 5 + 1;
    let month = if from_march < 10 { from_march + 3 } else { from_march - 9 };
    (era * 400 + year + u64::from(month <= 2), month, date)
}

/// The day of a date, if there is such a date.
fn day(year: u64, month: u64, date: u64) -> Option<u64> {
    if year < 1970 || !(1..=12).contains(&month) {
        return None;
    }
    let from_march = if month > 2 { month - 3 } else { month + 9 };
    let y = year - u64::from(month <= 2);
    let (era, of_era) = (y / 400, y % 400);
    let of_year = (153 * from_march + 2) / 5 + date.checked_sub(1)?;
    let day = (era * 146_097 + of_era * 365 + of_era / 4 + of_year).checked_sub(of_era / 100 + 719_468)?;
    (civil(day) == (year, month, date)).then_some(day)
}

/// Reads a time: seconds, as `1000000` or `1000000.25`, or ISO 8601 in UTC, as `2001-09-09`, `2001-09-09T01:46` or
/// `2001-09-09T01:46:40.25Z`.
pub fn read(text: &str) -> Option<u64> {
    let Some((date, rest)) = text.split_once('T') else {
        return match text.contains('-') {
            true => Some(read_date(text)? * 86_400 * SECOND),
            // ten digits, so that no count of ninths wraps
            false => decimal(text).filter(|micros| *micros < 10_000_000_000 * SECOND),
        };
    };
    let rest = rest.strip_suffix('Z').unwrap_or(rest);
    let parts: Vec<&str> = rest.split(':').collect();
    let (hour, minute, second) = match parts[..] {
        [h, m] => (number(h)?, number(m)?, 0),
        [h, m, s] => (number(h)?, number(m)?, decimal(s)?),
        _ => return None,
    };
    if hour > 23 || minute > 59 || second >= 60 * SECOND {
        return None;
    }
    let minutes = read_date(date)? * 1_440 + hour * 60 + minute;
    Some(minutes * 60 * SECOND + second)
}

fn read_date(text: &str) -> Option<u64> {
    let parts: Vec<&str> = text.split('-').collect();
    match parts[..] {
        [y, m, d] => day(number(y)?, number(m)?, number(d)?).filter(|_| y.len() <= 4),
        _ => None,
    }
}

/// A number with at most six places behind the point, in millionths.
pub fn decimal(text: &str) -> Option<u64> {
    let (whole, rest) = text.split_once('.').unwrap_or((text, "0"));
    if rest.is_empty() || rest.len() > 6 {
        return None;
    }
    Some(number(whole)? * SECOND + number(&format!("{rest:0<6}"))?)
}

/// At most twelve digits, so that no sum of these wraps.
fn number(text: &str) -> Option<u64> {
    let digits = !text.is_empty() && text.len() <= 12 && text.bytes().all(|b| b.is_ascii_digit());
    digits.then(|| text.parse().ok()).flatten()
}

#[cfg(test)]
mod tests {
    use super::*;

    #[test]
    fn times_as_text() {
        let cases = [
            (0, "1970-01-01T00:00:00.000000Z"),
            (1_000_000_000 * SECOND, "2001-09-09T01:46:40.000000Z"),
            (951_782_400 * SECOND, "2000-02-29T00:00:00.000000Z"),
            (951_868_800 * SECOND + 1, "2000-03-01T00:00:00.000001Z"),
            (1_709_251_199 * SECOND + 500_000, "2024-02-29T23:59:59.500000Z"),
            // by date(1)
            (1_794_816_000 * SECOND, "2026-11-16T08:00:00.000000Z"),
            (4_294_967_295 * SECOND, "2106-02-07T06:28:15.000000Z"),
        ];
        for (micros, shown) in cases {
            assert_eq!((&text(micros)[..], read(shown)), (shown, Some(micros)));
        }
    }

    #[test]
    fn every_day_is_read_back() {
        for of in 0..50_000 {
            let (year, month, date) = civil(of);
            assert_eq!(day(year, month, date), Some(of));
        }
    }

    #[test]
    fn times_from_people() {
        assert_eq!(read("1000"), Some(1_000 * SECOND));
        assert_eq!(read("1000.5"), Some(1_000 * SECOND + SECOND / 2));
        assert_eq!(read("1970-01-02"), Some(86_400 * SECOND));
        assert_eq!(read("1970-01-01T01:00"), Some(3_600 * SECOND));
        #[rustfmt::skip]
        let wrong = [
            "", "x", "1.1234567", "2001-02-29", "2001-13-01", "2001-01-01T24:00", "2001-01-01T10:60", "2001-01-01T10:00:60",
            "2001-01-01T10", "99999999999", "1969-12-31", "-5", "2026-02-29T00:00:00Z", "2026-11-16T24:00:00Z", "2026-+1-16", "99999-01-01",
        ];
        for text in wrong {
            assert_eq!(read(text), None, "{text}");
        }
    }
}
