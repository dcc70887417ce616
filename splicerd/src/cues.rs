//! Sections of cues that are handed in: from a file, a line for each, or by the page.

use crate::time;

/// A cue to come: when it is handed in, to which channel, and the call's values.
#[derive(Clone, Debug, PartialEq, Eq)]
pub struct Cue {
    pub time: u64,
    pub channel: Vec<u8>,
    pub section: Vec<u8>,
    pub pts: u64,
    pub at: (u32, u32),
}

/// A line: TIME CHANNEL SECTION PTS [TIME], the channel's name with %XX for bytes outside A-Z a-z 0-9 - _, the section in hex or
/// base64, the second time the instant of the PTS (that of the line without one).
fn line(text: &str) -> Option<Cue> {
    let parts: Vec<&str> = text.split_whitespace().collect();
    let ([time, channel, section, pts], instant) = match parts[..] {
        [time, channel, section, pts] => ([time, channel, section, pts], time),
        [time, channel, section, pts, instant] => ([time, channel, section, pts], instant),
        _ => return None,
    };
    let at = time::parts(time::read(instant)?);
    Some(Cue { time: time::read(time)?, channel: unescaped(channel)?, section: bytes(section)?, pts: pts.parse().ok()?, at })
}

/// A file of them, in order of time; or the first line that is none. Lines that are empty or begin with # are left out.
pub fn read(text: &str) -> Result<Vec<Cue>, String> {
    let lines = text.lines().enumerate().filter(|(_, l)| !l.trim().is_empty() && !l.starts_with('#'));
    let cues: Result<Vec<Cue>, String> = lines.map(|(n, l)| line(l).ok_or(format!("line {}: no cue: {l}", n + 1))).collect();
    let mut cues = cues?;
    cues.sort_by_key(|cue| cue.time);
    Ok(cues)
}

/// %XX as the byte that it stands for.
pub fn unescaped(text: &str) -> Option<Vec<u8>> {
    let mut parts = text.split('%');
    let mut found = parts.next()?.as_bytes().to_vec();
    for part in parts {
        found.push(u8::from_str_radix(part.get(..2)?, 16).ok()?);
        found.extend_from_slice(&part.as_bytes()[2..]);
    }
    Some(found)
}

/// Hex, or else base64.
pub fn bytes(text: &str) -> Option<Vec<u8>> {
    hex(text).or_else(|| base64(text))
}

pub fn hex(text: &str) -> Option<Vec<u8>> {
    let digits: Option<Vec<u8>> = text.chars().map(|c| c.to_digit(16).map(|d| d as u8)).collect();
    let digits = digits?;
    (digits.len() % 2 == 0).then(|| digits.chunks(2).map(|pair| pair[0] << 4 | pair[1]).collect())
}

pub fn base64(text: &str) -> Option<Vec<u8>> {
    const LETTERS: &[u8] = b"ABCDEFGHIJKLMNOPQRSTUVWXYZabcdefghijklmnopqrstuvwxyz0123456789+/";
    let kept = text.trim_end_matches('=');
    let padded = text.len() - kept.len();
    if text.len() % 4 != 0 || padded > 2 {
        return None;
    }
    let (mut found, mut held, mut bits) = (Vec::new(), 0u32, 0);
    for letter in kept.bytes() {
        held = held << 6 | LETTERS.iter().position(|l| *l == letter)? as u32;
        bits += 6;
        if bits >= 8 {
            bits -= 8;
            found.push((held >> bits) as u8);
            held &= (1 << bits) - 1;
        }
    }
    (held == 0).then_some(found)
}

#[cfg(test)]
mod tests {
    use super::*;

    #[test]
    fn sections() {
        assert_eq!(bytes("FC30"), Some(vec![0xFC, 0x30]));
        // RFC 4648's own examples
        for (text, wanted) in [("Zm9vYmFy", "foobar"), ("Zm9vYg==", "foob"), ("Zm9vYmE=", "fooba"), ("", "")] {
            assert_eq!(base64(text), Some(wanted.as_bytes().to_vec()));
        }
        for bad in ["Zm9", "Z===", "Zm9vYh==", "!!!!"] {
            assert_eq!(base64(bad), None, "{bad}");
        }
    }

    #[test]
    fn lines() {
        let cues = read("# none\n\n20 CH%201 FC30 90000 21.5\n10 CH1 /DA= 5\n").unwrap();
        let first = Cue { time: 10_000_000, channel: b"CH1".to_vec(), section: vec![0xFC, 0x30], pts: 5, at: (10, 0) };
        assert_eq!(cues[0], first);
        assert_eq!((&cues[1].channel[..], cues[1].at), (&b"CH 1"[..], (21, 500_000)));
        assert_eq!(read("10 CH1 FC30"), Err("line 1: no cue: 10 CH1 FC30".into()));
    }
}
