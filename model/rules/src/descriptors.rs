//! The descriptors behind a Splice_Request's tail: 01's form of each, J.280's Table 8-8, and of the
//! muxpriority_descriptor (Table 8-11) its value (02, CR 5).

use crate::requests::{Formed, Reading, Why};

/// 02, CR 5: "without one the value is 5". J.280: "5 is the average".
pub const AVERAGE: u8 = 5;
/// Splice_API_Identifier "SAPI".
pub const SAPI: [u8; 4] = *b"SAPI";

/// What stands at a place.
#[derive(Clone, Copy, Debug, PartialEq, Eq)]
pub enum Found {
    /// A muxpriority_descriptor and its value.
    Mux(u8),
    /// A descriptor of another tag or identifier: "the tag is foreign".
    Foreign,
}

/// "Length counts what follows it, is 4 to 254, and the descriptors fill the message exactly."
pub fn formed<'d>(_: &Reading, bytes: &'d [u8]) -> Formed<'d> {
    let [tag, length, rest @ ..] = bytes else {
        return Err("123 Splice descriptor without a length");
    };
    if *length < 4 {
        return Err("123 Splice descriptor length below 4");
    }
    if *length > 254 {
        return Err("123 Splice descriptor length 255");
    }
    let Some((body, behind)) = rest.split_at_checked(usize::from(*length)) else {
        return Err("123 Splice descriptor beyond the message");
    };
    Ok((*tag, body, behind))
}

/// "tag 0x02 under "SAPI"".
pub fn is_mux(_: &Reading, tag: u8, body: &[u8]) -> bool {
    tag == 2 && body.starts_with(&SAPI)
}

/// "the length must be 5 and the value 1 to 10".
pub fn mux_value(_: &Reading, body: &[u8]) -> Result<u8, Why> {
    match body {
        [_, _, _, _, 0] => Err("123 Splice muxpriority value 0"),
        [_, _, _, _, value @ 1..=10] => Ok(*value),
        [_, _, _, _, _] => Err("123 Splice muxpriority value above 10"),
        _ if body.len() < 5 => Err("123 Splice muxpriority length 4"),
        _ => Err("123 Splice muxpriority length above 5"),
    }
}

/// "The descriptor reader must [..] say what it found, the value with its descriptor or that the tag is foreign": the
/// descriptor in front and the bytes behind it; none at their end.
pub fn first<'d>(r: &Reading, bytes: &'d [u8]) -> Result<Option<(Found, &'d [u8])>, Why> {
    if bytes.is_empty() {
        return Ok(None);
    }
    let (tag, body, behind) = r.formed(bytes)?;
    let found = match r.is_mux(tag, body) {
        true => Found::Mux(r.mux_value(body)?),
        false => Found::Foreign,
    };
    Ok(Some((found, behind)))
}

/// "the last one wins, and without one the value is 5".
pub fn mux_of(r: &Reading, bytes: &[u8]) -> Result<u8, Why> {
    let mut value = AVERAGE;
    let mut rest = bytes;
    while let Some((found, behind)) = first(r, rest)? {
        if let Found::Mux(own) = found {
            value = own;
        }
        rest = behind;
    }
    Ok(value)
}
