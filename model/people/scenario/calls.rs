//! A scenario's call lines as card input.

use super::words::{hex_bytes, number, small, time, words_of, Fields};
use crate::people::card::{self, Call};
use crate::streams::{self, Stream, Streams};

pub(crate) fn call_bytes(line: &str) -> Result<Vec<u8>, String> {
    let (kind, rest) = line.split_once(char::is_whitespace).unwrap_or((line, ""));
    if kind == "raw" {
        return hex_bytes(rest);
    }
    Ok(card::input_bytes(&call_of(kind, rest.trim())?))
}

pub(super) fn call_of(kind: &str, rest: &str) -> Result<Call, String> {
    if kind == "message" {
        let (conn, hex) = rest.split_once(char::is_whitespace).ok_or("bytes are missing")?;
        return Ok(Call::Message(small(conn)?, hex_bytes(hex)?));
    }
    let words = words_of(rest)?;
    let first = words.first().ok_or("a word is missing")?;
    if kind == "tick" {
        let (seconds, micros) = time(first)?;
        Fields::new(&words[1..])?.done()?;
        return Ok(Call::Tick(seconds, micros));
    }
    let conn = small(first)?;
    let mut fields = Fields::new(&words[1..])?;
    let call = match kind {
        "open" => Call::Open(conn),
        "close" => Call::Close(conn),
        "init" => Call::Message(conn, message(0x0001, init_data(&mut fields)?)),
        "alive" => Call::Message(conn, message(0x0005, alive_data(&mut fields)?)),
        "splice" => Call::Message(conn, message(0x0007, splice_data(&mut fields)?)),
        "abort" => {
            let id = fields.required("id")?;
            Call::Message(conn, message(0x000E, id.to_be_bytes().to_vec()))
        }
        "config" => Call::Message(conn, message(0x000A, Vec::new())),
        "extended" => {
            let id = fields.required("id")?.to_be_bytes();
            let kind = fields.number("type", 0xFFFF_FFFF)?.to_be_bytes();
            Call::Message(conn, message(0x0003, [id, kind].concat()))
        }
        _ => return Err(format!("unknown call {kind}")),
    };
    fields.done()?;
    Ok(call)
}

/// A request: J.280 sets Result and Result_Extension to 0xFFFF.
pub fn message(id: u16, data: Vec<u8>) -> Vec<u8> {
    let mut bytes = id.to_be_bytes().to_vec();
    bytes.extend((data.len() as u16).to_be_bytes());
    bytes.extend([0xFF; 4]);
    bytes.extend(data);
    bytes
}

/// A 32-byte name field; `junk` goes behind the zero byte that ends the name.
pub(super) fn name_field(name: &str, junk: &[u8]) -> Result<[u8; 32], String> {
    let mut bytes = name.as_bytes().to_vec();
    if !junk.is_empty() {
        bytes.push(0);
        bytes.extend(junk);
    }
    if bytes.len() > 32 {
        return Err("the name is longer than 32 bytes".to_string());
    }
    bytes.resize(32, 0);
    bytes.try_into().map_err(|_| "name".to_string())
}

/// Hardware_Config if none is given: Length 8, Chassis 1, Card 1, Port 1, type 0.
pub(super) const HARDWARE: &str = "00080001000100010000";

pub(super) fn init_data(fields: &mut Fields) -> Result<Vec<u8>, String> {
    let name = fields.take("name").unwrap_or("CH1".to_string());
    let junk = hex_bytes(&fields.take("junk").unwrap_or_default())?;
    let splicer = fields.take("splicer").unwrap_or("SPLICER".to_string());
    let extra = fields.take("extra").unwrap_or(HARDWARE.to_string());
    let mut data = fields.half("revision", 2)?.to_be_bytes().to_vec();
    data.extend(name_field(&name, &junk)?);
    data.extend(name_field(&splicer, &[])?);
    data.extend(hex_bytes(&extra)?);
    Ok(data)
}

pub(super) fn alive_data(fields: &mut Fields) -> Result<Vec<u8>, String> {
    let (seconds, micros) = time(&fields.take("time").unwrap_or("0".to_string()))?;
    Ok([seconds.to_be_bytes(), micros.to_be_bytes()].concat())
}

pub(super) fn splice_data(fields: &mut Fields) -> Result<Vec<u8>, String> {
    let id = fields.required("id")?;
    let at = fields.take("at");
    let prior = fields.take("prior");
    if at.is_none() && prior.is_none() {
        return Err("at= or prior= is missing".to_string());
    }
    let prior = prior.map_or(Ok(0xFFFF_FFFF), |p| number(&p))?;
    let (seconds, micros) = time(&at.unwrap_or("0".to_string()))?;
    let mut data = Vec::new();
    for word in [id, prior, seconds, micros] {
        data.extend(word.to_be_bytes());
    }
    let streams = streams_of(fields)?;
    let service = if streams.is_empty() { 1 } else { 0xFFFF };
    data.extend(fields.half("service", service)?.to_be_bytes());
    data.extend(streams);
    data.extend(fields.required("duration")?.to_be_bytes());
    data.extend(fields.number("event", 0xFFFF_FFFF)?.to_be_bytes());
    data.extend(fields.number("postblack", 0)?.to_be_bytes());
    data.push(fields.small("access", 0)?);
    data.push(fields.small("override", 0)?);
    data.push(fields.small("return", 1)?);
    data.extend(hex_bytes(&fields.take("desc").unwrap_or_default())?);
    Ok(data)
}

/// The bytes of separate PIDs, from PcrPID on, if there is a `pcr=`. `pids=` gives another PIDCount.
pub(super) fn streams_of(fields: &mut Fields) -> Result<Vec<u8>, String> {
    let mut streams = Streams::default();
    while let Some(text) = fields.take("stream") {
        streams.list.push(stream(&text)?);
    }
    let pids = fields.take("pids");
    let Some(pcr_pid) = fields.take("pcr") else {
        if pids.is_some() || !streams.list.is_empty() {
            return Err("pcr= is missing".to_string());
        }
        return Ok(Vec::new());
    };
    streams.pcr_pid = number(&pcr_pid)?.into();
    let mut bytes = streams::write(&streams).ok_or("a list that cannot be written")?;
    if let Some(count) = pids {
        bytes[2..6].copy_from_slice(&number(&count)?.to_be_bytes());
    }
    Ok(bytes)
}

/// `PID:TYPE:AVG:MAX:MIN:H:V[:HEX]`, the bytes behind the first 21 last.
pub(super) fn stream(text: &str) -> Result<Stream, String> {
    let parts: Vec<&str> = text.split(':').collect();
    if !(7..=8).contains(&parts.len()) {
        return Err(format!("seven numbers are needed: {text}"));
    }
    let field = |at: usize| number(parts[at]).map(u64::from);
    Ok(Stream {
        pid: field(0)?,
        kind: field(1)?,
        average: field(2)?,
        highest: field(3)?,
        lowest: field(4)?,
        width: field(5)?,
        height: field(6)?,
        kept: hex_bytes(parts.get(7).unwrap_or(&""))?,
    })
}
