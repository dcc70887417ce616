//! A scenario's expected lines as records.

use super::calls::{name_field, HARDWARE};
use super::words::{hex_bytes, number, small, time, words_of, Fields};
use crate::people::record_lines::{Record, Shown, What};

/// The bytes of an expected line.
pub(crate) fn expected_bytes(line: &str) -> Result<Vec<u8>, String> {
    if let Some(hex) = line.strip_prefix("bytes") {
        return hex_bytes(hex);
    }
    let words = words_of(line)?;
    if let [refused, n] = &words[..] {
        if refused == "refused" {
            return Ok(vec![0x45, small(n)?]);
        }
    }
    if words.get(1).is_some_and(|word| word == "Cue_Request") {
        return cue_request(small(&words[0])?, &words[2..]);
    }
    if words.len() < 3 {
        return Err("connection, message and result are needed".to_string());
    }
    let conn = small(&words[0])?;
    let result = u16::try_from(number(&words[2])?).map_err(|_| "result too large")?;
    let mut fields = Fields::new(&words[3..])?;
    let what = expected_record(&words[1], result, &mut fields)?;
    fields.done()?;
    Ok(Record { conn, what }.bytes())
}

/// `C Cue_Request time=TIME|none section=HEX`: it has no result.
pub(super) fn cue_request(conn: u8, words: &[String]) -> Result<Vec<u8>, String> {
    let mut fields = Fields::new(words)?;
    let text = fields.take("time").ok_or("time= is missing")?;
    let (seconds, micros) = match text.as_str() {
        "none" => (0xFFFF_FFFF, 0xFFFF_FFFF),
        text => time(text)?,
    };
    let section = hex_bytes(&fields.take("section").ok_or("section= is missing")?)?;
    fields.done()?;
    let what = What::Cue { seconds, micros, section };
    Ok(Record { conn, what }.bytes())
}

pub(super) fn expected_record(kind: &str, result: u16, fields: &mut Fields) -> Result<What, String> {
    Ok(match kind {
        "General_Response" => What::General { result },
        "Init_Response" => {
            What::Init { result, revision: 2, name: name_field(&fields.take("name").unwrap_or("CH1".to_string()), &[])? }
        }
        "Alive_Response" => {
            let state = fields.required("state")?;
            let id = fields.required("id")?;
            let (seconds, micros) = time(&fields.take("time").ok_or("time= is missing")?)?;
            What::Alive { result, state, id, seconds, micros }
        }
        "Splice_Response" => What::Splice { result, id: fields.required("id")? },
        "SpliceComplete_Response" => What::Complete {
            result,
            id: fields.required("id")?,
            flag: u8::try_from(fields.required("flag")?).map_err(|_| "flag too large")?,
            bitrate: 0,
            played: fields.required("played")?,
        },
        "Abort_Response" => What::Abort { result, id: fields.required("id")? },
        "GetConfig_Response" => What::Config {
            result,
            name: name_field(&fields.take("name").unwrap_or("CH1".to_string()), &[])?,
            hardware: hex_bytes(&fields.take("hardware").unwrap_or(HARDWARE.to_string()))?,
            map: hex_bytes(&fields.take("map").unwrap_or_default())?,
        },
        "ExtendedData_Response" => What::Extended { result, id: fields.required("id")?, shown: expected_shown(fields)? },
        _ => return Err(format!("unknown record {kind}")),
    })
}

/// The descriptor of an ExtendedData_Response, if there is an `event=`.
pub(super) fn expected_shown(fields: &mut Fields) -> Result<Option<Shown>, String> {
    let Some(event) = fields.take("event") else {
        return Ok(None);
    };
    let result = fields.required("result")?;
    Ok(Some(Shown {
        event: number(&event)?,
        result: u16::try_from(result).map_err(|_| "result too large")?,
        played: fields.required("played")?,
    }))
}
