//! The words of a scenario's line.

/// The words of a line; quotes keep blanks together and are taken off.
pub(super) fn words_of(line: &str) -> Result<Vec<String>, String> {
    let mut list = Vec::new();
    let mut current = String::new();
    let (mut inside, mut begun) = (false, false);
    for c in line.chars() {
        if c == '"' {
            inside = !inside;
            begun = true;
        } else if c.is_whitespace() && !inside {
            if begun {
                list.push(std::mem::take(&mut current));
            }
            begun = false;
        } else {
            current.push(c);
            begun = true;
        }
    }
    if inside {
        return Err("quote not closed".to_string());
    }
    if begun {
        list.push(current);
    }
    Ok(list)
}

/// A decimal or 0x number.
pub(super) fn number(text: &str) -> Result<u32, String> {
    let value = match text.strip_prefix("0x") {
        Some(digits) => u32::from_str_radix(digits, 16),
        None => text.parse(),
    };
    value.map_err(|_| format!("no number: {text}"))
}

pub(super) fn small(text: &str) -> Result<u8, String> {
    let value = number(text)?;
    u8::try_from(value).map_err(|_| format!("does not fit one byte: {text}"))
}

/// `S`, `S.UUUUUU` with exactly six digits, or `S:U` with raw microseconds.
pub fn time(text: &str) -> Result<(u32, u32), String> {
    if let Some((seconds, micros)) = text.split_once(':') {
        return Ok((number(seconds)?, number(micros)?));
    }
    let Some((seconds, micros)) = text.split_once('.') else {
        return Ok((number(text)?, 0));
    };
    if micros.len() != 6 || !micros.bytes().all(|b| b.is_ascii_digit()) {
        return Err(format!("six digits are needed after the point: {text}"));
    }
    let micros = micros.parse().map_err(|_| format!("no time: {text}"))?;
    Ok((number(seconds)?, micros))
}

/// Hexadecimal bytes, blanks allowed.
pub fn hex_bytes(text: &str) -> Result<Vec<u8>, String> {
    let digits: Vec<u32> = text
        .chars()
        .filter(|c| !c.is_whitespace())
        .map(|c| c.to_digit(16).ok_or(format!("no hexadecimal digit: {c}")))
        .collect::<Result<_, _>>()?;
    if !digits.len().is_multiple_of(2) {
        return Err("half a byte is left over".to_string());
    }
    Ok(digits.chunks(2).map(|d| (d[0] * 16 + d[1]) as u8).collect())
}

/// A decimal or 0x number of 64 bits.
pub fn wide(text: &str) -> Result<u64, String> {
    let value = match text.strip_prefix("0x") {
        Some(digits) => u64::from_str_radix(digits, 16),
        None => text.parse(),
    };
    value.map_err(|_| format!("no number: {text}"))
}

/// The `key=value` words of a line. Every one must be taken.
pub(super) struct Fields {
    list: Vec<(String, String)>,
}

impl Fields {
    pub(super) fn new(words: &[String]) -> Result<Fields, String> {
        let mut list: Vec<(String, String)> = Vec::new();
        for word in words {
            let (key, value) = word.split_once('=').ok_or(format!("no '=' in {word}"))?;
            if key != "stream" && list.iter().any(|(k, _)| k == key) {
                return Err(format!("{key} twice"));
            }
            list.push((key.to_string(), value.to_string()));
        }
        Ok(Fields { list })
    }

    pub(super) fn take(&mut self, key: &str) -> Option<String> {
        let place = self.list.iter().position(|(k, _)| k == key)?;
        Some(self.list.remove(place).1)
    }

    pub(super) fn number(&mut self, key: &str, default: u32) -> Result<u32, String> {
        self.take(key).map_or(Ok(default), |v| number(&v))
    }

    pub(super) fn required(&mut self, key: &str) -> Result<u32, String> {
        number(&self.take(key).ok_or(format!("{key}= is missing"))?)
    }

    pub(super) fn small(&mut self, key: &str, default: u8) -> Result<u8, String> {
        let value = self.number(key, u32::from(default))?;
        u8::try_from(value).map_err(|_| format!("{key} does not fit one byte"))
    }

    pub(super) fn half(&mut self, key: &str, default: u16) -> Result<u16, String> {
        let value = self.number(key, u32::from(default))?;
        u16::try_from(value).map_err(|_| format!("{key} does not fit two bytes"))
    }

    pub(super) fn done(self) -> Result<(), String> {
        match self.list.first() {
            None => Ok(()),
            Some((key, _)) => Err(format!("unknown word {key}=")),
        }
    }
}
