//! The command `cue`: sections as lines for people, made from words, out of transport streams and into them.

use crate::option;
use crate::people::cue_call::{self, crc, judged, time_of, Comes, Given};
use crate::people::made::made;
use crate::people::make_recording;
use crate::people::ninths;
use crate::people::record_lines;
use crate::people::scenario::{self, hex_bytes, wide};
use crate::people::section_bytes::is_whole;
use crate::people::shown::Shown;
use crate::people::why::{in_full, misfit};
use crate::people::{carriage, field_names};
use rules::sections::ticks;

/// Draws sections, of a seed as many.
pub type Drawn = fn(u64, u64) -> Vec<Vec<u8>>;

/// What `model cue` was asked for.
struct Asked {
    pts: Option<u64>,
    at: Option<(u32, u32)>,
    out: Option<String>,
    fields: Option<Vec<String>>,
    hex: bool,
}

/// Runs the command; the text is for standard output.
pub fn command(args: &[String], drawn: Drawn) -> Result<String, String> {
    let mut args = args.to_vec();
    let pts = option(&mut args, "--pts")?.map(|text| wide(&text)).transpose()?;
    let at = option(&mut args, "--at")?.map(|text| instant(&text));
    let asked = Asked {
        pts,
        at: at.transpose()?,
        out: option(&mut args, "--out")?,
        fields: option(&mut args, "--fields")?.map(|names| field_names::of_list(&names)).transpose()?,
        hex: taken(&mut args, "--hex"),
    };
    if asked.pts.is_some() != asked.at.is_some() {
        return Err("--pts and --at belong together".to_string());
    }
    let list = sections(args, drawn)?;
    if list.is_empty() {
        return Err("no section".to_string());
    }
    told(&list, &asked)
}

/// Takes the word out of the arguments.
fn taken(args: &mut Vec<String>, word: &str) -> bool {
    let place = args.iter().position(|a| a == word);
    place.map(|at| args.remove(at)).is_some()
}

/// The sections that the words give, from wherever they come.
fn sections(mut args: Vec<String>, drawn: Drawn) -> Result<Vec<Vec<u8>>, String> {
    let file = |path: &String| std::fs::read(path).map_err(|e| format!("{path}: {e}"));
    if taken(&mut args, "--make") {
        return Ok(vec![made(&args)?]);
    }
    if let Some(path) = option(&mut args, "--ts")? {
        let pid = option(&mut args, "--pid")?.map(|text| wide(&text).and_then(carriage::pid)).transpose()?;
        nothing(&args)?;
        let found = carriage::sections(&file(&path)?, pid).map_err(|e| format!("{path}: {e}"))?;
        return Ok(found.into_iter().map(|(_, section)| section).collect());
    }
    if let Some(path) = option(&mut args, "--records")? {
        nothing(&args)?;
        return of_records(&file(&path)?).map_err(|e| format!("{path}: {e}"));
    }
    if let Some(count) = option(&mut args, "--drawn")? {
        let seed = option(&mut args, "--seed")?.map_or(Ok(280), |text| wide(&text))?;
        nothing(&args)?;
        return Ok(drawn(seed, wide(&count)?));
    }
    of_words(&args)
}

fn nothing(args: &[String]) -> Result<(), String> {
    match args.first() {
        None => Ok(()),
        Some(word) => Err(format!("unknown word {word}")),
    }
}

/// Hexadecimal, with 0x or without, or base64. Words of up to 8 hexadecimal digits without 0x are pieces of one section.
fn of_words(words: &[String]) -> Result<Vec<Vec<u8>>, String> {
    let mut list: Vec<Vec<u8>> = Vec::new();
    let mut pieces = false;
    for word in words {
        if word.starts_with("--") {
            return Err(format!("unknown word {word}"));
        }
        let piece = word.len() <= 8 && is_hex(word);
        let bytes = of_word(word)?;
        match list.last_mut().filter(|_| pieces && piece) {
            Some(last) => last.extend(bytes),
            None => list.push(bytes),
        }
        pieces = piece;
    }
    Ok(list)
}

fn is_hex(word: &str) -> bool {
    !word.is_empty() && word.bytes().all(|b| b.is_ascii_hexdigit())
}

/// A section's bytes. Digits may be of any length: whoever looks at damage has these. Base64 must give a whole section, without a bit left
/// over: by its letters alone nearly any word is base64, and whoever pastes it has a whole one.
fn of_word(word: &str) -> Result<Vec<u8>, String> {
    let digits = word.strip_prefix("0x").or(word.strip_prefix("0X"));
    let neither = || format!("neither hexadecimal nor base64 of a section: {word}");
    match digits {
        Some(digits) if is_hex(digits) => hex_bytes(digits),
        None if is_hex(word) => hex_bytes(word),
        None => base64(word).filter(|bytes| is_whole(bytes)).ok_or_else(neither),
        Some(_) => Err(neither()),
    }
}

const LETTERS: &[u8; 64] = b"ABCDEFGHIJKLMNOPQRSTUVWXYZabcdefghijklmnopqrstuvwxyz0123456789+/";

fn base64(word: &str) -> Option<Vec<u8>> {
    let text = word.trim_end_matches('=');
    let mut bytes = Vec::new();
    for four in text.as_bytes().chunks(4) {
        let mut number = 0u32;
        for letter in four {
            number = number << 6 | LETTERS.iter().position(|own| own == letter)? as u32;
        }
        number <<= 6 * (4 - four.len());
        bytes.extend(&number.to_be_bytes()[1..four.len()]);
    }
    // nothing between the letters, no bits behind the last byte, and as many signs of the end as are due
    (to_base64(&bytes).trim_end_matches('=') == text && (text == word || word.len().is_multiple_of(4))).then_some(bytes)
}

/// Seconds, or ISO 8601 in UTC; or Seconds:MicroSeconds, which may be out of range.
fn instant(text: &str) -> Result<(u32, u32), String> {
    if text.contains(':') && !text.contains('T') {
        return scenario::time(text);
    }
    let found = ninths::read(text).map(|time| (time / ninths::SECOND, time % ninths::SECOND / ninths::MICRO));
    let (seconds, micros) = found.ok_or(format!("no time: {text}"))?;
    let seconds = u32::try_from(seconds).map_err(|_| format!("past the time field: {text}"))?;
    Ok((seconds, micros as u32))
}

pub fn to_base64(bytes: &[u8]) -> String {
    let mut text = String::new();
    for three in bytes.chunks(3) {
        let mut number = [0; 4];
        number[1..=three.len()].copy_from_slice(three);
        let number = u32::from_be_bytes(number);
        for place in 0..4 {
            let letter = LETTERS[(number >> (18 - 6 * place) & 63) as usize];
            let there = place <= three.len();
            text.push(if there { letter as char } else { '=' });
        }
    }
    text
}

/// The sections of the Cue_Requests in recorded output; those of one call to several connections are one.
fn of_records(bytes: &[u8]) -> Result<Vec<Vec<u8>>, String> {
    let (entries, end) = make_recording::entries(bytes);
    if let make_recording::End::Unknown { at } = end {
        return Err(format!("no record at {at}"));
    }
    let mut list = Vec::new();
    let mut last: Option<(u8, Vec<u8>)> = None;
    for entry in entries {
        let cue = entry.bytes.len() > 18 && entry.bytes[0] == 0x52 && entry.bytes[2..4] == [0, 0x0C];
        if !cue {
            last = None;
            continue;
        }
        let (conn, data) = (entry.bytes[1], entry.bytes[10..].to_vec());
        let again = last.is_some_and(|(before, same)| before < conn && same == data);
        if !again {
            list.push(data[8..].to_vec());
        }
        last = Some((conn, data));
    }
    Ok(list)
}

fn told(list: &[Vec<u8>], asked: &Asked) -> Result<String, String> {
    if let Some(path) = &asked.out {
        let stream = carriage::stream(list);
        std::fs::write(path, &stream).map_err(|e| format!("{path}: {e}"))?;
        let packets = stream.len() / 188;
        return Ok(format!("{} sections in {packets} packets\n", list.len()));
    }
    let digits = |section: &Vec<u8>| -> String {
        let list = section.iter().map(|b| format!("{b:02X}"));
        list.collect::<String>() + "\n"
    };
    if asked.hex {
        return Ok(list.iter().map(digits).collect());
    }
    if let Some(names) = &asked.fields {
        return Ok(list.iter().map(|s| fields_of(s, names)).collect());
    }
    let texts: Vec<String> = list.iter().map(|s| lines_of(s, asked)).collect();
    Ok(texts.join("\n"))
}

/// The values of these fields, with tabs between them.
fn fields_of(section: &[u8], names: &[String]) -> String {
    let shown = Shown::of(section);
    let values: Vec<String> = names.iter().map(|name| shown.plain(name)).collect();
    values.join("\t") + "\n"
}

/// Every field, the CRC, and what the core does with it.
fn lines_of(section: &[u8], asked: &Asked) -> String {
    let mut text = format!("section of {} bytes, {}\n", section.len(), to_base64(section));
    let shown = Shown::of(section);
    for (place, (name, value)) in shown.fields.iter().enumerate() {
        let mut line = format!("  {name:<30} {}", value.line());
        if *name == "CRC_32" {
            line += &crc_word(section);
        }
        if let Some(words) = shown.meant(place) {
            line += &format!(" ({words})");
        }
        text += &format!("{line}\n");
    }
    text + &core_line(section, asked)
}

fn crc_word(section: &[u8]) -> String {
    let due = crc(&section[..section.len() - 4]);
    match crc(section) {
        0 => " right".to_string(),
        _ => format!(" wrong: 0x{due:08X} is due"),
    }
}

/// What the core would do with it, and the time if there is one to be told.
fn core_line(section: &[u8], asked: &Asked) -> String {
    if let Some(why) = misfit(section) {
        return format!("  the core: refused 11: {}\n", &why["cue 11 ".len()..]);
    }
    let (comes, name) = judged(section);
    let branch = in_full(section, name);
    let why = branch.split_once(": ").map_or(branch, |(_, why)| why);
    let what = match comes {
        Comes::Nothing => return format!("  the core: writes nothing: {why}\n"),
        Comes::Bad => return format!("  the core: {}: {why}\n", told_117()),
        Comes::At(cue) => format!("{why}, cue's PTS {cue}"),
        Comes::Timeless => format!("{why}, no time"),
    };
    let size = 8 + section.len();
    let mut text = format!("  the core: Cue_Request, MessageSize {size}: {what}\n");
    let (Some(pts), Some((seconds, micros))) = (asked.pts, asked.at) else {
        return text;
    };
    let given = Given { section: section.to_vec(), pts, seconds, micros };
    if micros > 999_999 {
        return "  the core: refused 8\n".to_string();
    }
    if let Comes::At(cue) = comes {
        text += &format!("  ticks from the given PTS: {}\n", ticks(cue, pts));
    }
    let (seconds, micros) = time_of(comes, &given);
    let bytes = format!("{seconds:08X} {micros:08X}");
    text + &format!("  time: {} ({bytes})\n", record_lines::cue_time(seconds, micros))
}

fn told_117() -> String {
    format!("General_Response {}", record_lines::named(cue_call::INVALID))
}

#[cfg(test)]
mod tests {
    use super::*;

    const FIRST: &str = "/DAgAAAAAAAAAP/wDwUAAozof8/+1Ykjv1VmAAAAAB2A2F0=";
    const SECOND: &str = "/DAWAAEAAAAQAP/wBQb/I0VniQAAcTsivQ==";

    fn words(text: &str) -> Vec<String> {
        text.split_whitespace().map(str::to_string).collect()
    }

    fn run(text: &str) -> String {
        command(&words(text), |_, _| Vec::new()).unwrap()
    }

    #[test]
    fn the_pages_base64() {
        for text in [FIRST, SECOND] {
            assert_eq!(to_base64(&base64(text).unwrap()), text);
        }
        assert_eq!(base64("/DA!"), None);
        // too few letters, bits behind the last byte, too few signs of the end
        for word in ["z", "zz", "zzz", "/DAW=", "/DAWAA="] {
            assert_eq!(base64(word), None, "{word}");
        }
        let first = run(FIRST);
        assert!(first.contains("section of 35 bytes"), "{first}");
        assert!(first.contains("CRC_32                         0x1D80D85D right"));
        let same = "FC 30 20 00 00 00 00 00 00 00 FF F0 0F 05 00 02 8C E8 7F CF FE D5 89 23 BF 55 66 \
                    00 00 00 00 1D 80 D8 5D";
        assert_eq!(run(same), first);
        assert_eq!(run(&same.replace(' ', "")), first);
        let both = run(&format!("{FIRST} {SECOND}"));
        assert!(both.starts_with(&first) && both.contains("section of 25 bytes"));
    }

    #[test]
    fn hexadecimal_with_0x_and_in_pieces() {
        let plain = run("FC301600010000001000FFF00506FF234567890000713B22BD --hex");
        assert_eq!(run("0xFC301600010000001000FFF00506FF234567890000713B22BD --hex"), plain);
        assert_eq!(run("FC3016 00010000 001000FF F00506FF 23456789 0000713B 22BD --hex"), plain);
        assert_eq!(run("0xFC 0x30 --hex"), "FC\n30\n");
    }

    #[test]
    fn what_is_no_section_is_refused() {
        for word in ["zzz", "0x", "0xFC3", "0xzz", "FC3", "0xFC30..", "/DAW", "Zm9vYmFy", "hello", "----"] {
            let said = command(&words(word), |_, _| Vec::new());
            let text = said.expect_err(word);
            assert!(!text.contains('\n'), "{text}");
        }
    }

    #[test]
    fn instants_as_the_desk_takes_them() {
        assert_eq!(instant("1000.25"), Ok((1_000, 250_000)));
        assert_eq!(instant("2001-09-09T01:46:40.25Z"), Ok((1_000_000_000, 250_000)));
        assert_eq!(instant("2106-02-07T06:28:15"), Ok((u32::MAX, 0)));
        for wrong in ["2106-02-07T06:28:16", "2001-13-01", "2001-09-09T25:00", "-5", "x"] {
            assert!(instant(wrong).is_err(), "{wrong}");
        }
    }

    #[test]
    fn what_the_core_does() {
        let told = run(&format!("{SECOND} --pts 591651064 --at 1000"));
        assert!(told.contains("cue's PTS 591751065"), "{told}");
        assert!(told.contains("ticks from the given PTS: 100001"), "{told}");
        assert!(told.contains("time: 1001.111122 (000003E9 0001B212)"), "{told}");
        let made = |text: &str| run(&format!("--make {text}"));
        assert!(made("null length=1").contains("General_Response 117 (Invalid Cue Message): splice_command_length one more"));
        assert!(made("null crc=0").contains("wrong: 0x"));
        assert!(made("schedule body=00").contains("writes nothing: splice_schedule"));
        assert!(made("insert component=1").contains("writes nothing: component mode"));
        assert!(run("FC3000").contains("refused 11: under 19 bytes"));
        assert!(run(&format!("{SECOND} --pts 0 --at 1:1000000")).contains("refused 8"));
        let none = run("--make null --pts 1 --at 5");
        assert!(none.contains("time: none (FFFFFFFF FFFFFFFF)"), "{none}");
    }

    #[test]
    fn sections_are_made_from_words() {
        let first = "insert id=0x28CE8 pts=0xD58923BF program=0x5566";
        assert_eq!(made(&words(first)).ok(), base64(FIRST));
        let second = "time_signal pts=0x123456789 adjustment=0x100000010";
        assert_eq!(made(&words(second)).ok(), base64(SECOND));
        let all = "insert id=1 cancelled=0 out=0 immediate=0 component=1:5 component=2 auto=1 duration=9 \
                   program=1 avail=2 avails=3 table=0xFD indicators=15 protocol=1 encrypted=1 algorithm=63 \
                   adjustment=1 cw_index=2 tier=3 length=4 loop=5 desc=0001 stuffing=FF crc=0x01020304";
        let bytes = made(&words(all)).unwrap();
        let front = "FD F0 30 01 FE 00 00 00 01 02 00 30 04 05 00 00 00 01 7F 2F 02 01 FE 00 00 00 05 \
                     02 7F FE 00 00 00 09 00 01 02 03 00 05 00 01 FF 01 02 03 04";
        let front: Vec<u8> = hex_bytes(front).unwrap();
        assert_eq!(bytes[..2], front[..2]);
        assert_eq!(bytes[3..], front[3..]);
        for wrong in ["", "jump", "null pts=1", "insert id", "time_signal pts=x"] {
            assert!(made(&words(wrong)).is_err(), "{wrong}");
        }
    }

    #[test]
    fn records_of_one_call_are_one_section() {
        let section = base64(SECOND).unwrap();
        let record = |conn: u8, seconds: u32| {
            let what = record_lines::What::Cue { seconds, micros: 0, section: section.clone() };
            record_lines::Record { conn, what }.bytes()
        };
        let refused = vec![0x45, 11];
        let bytes = [record(0, 1), record(2, 1), record(3, 1), record(0, 1), record(1, 2), refused, record(2, 2)];
        assert_eq!(of_records(&bytes.concat()).unwrap().len(), 4);
        assert!(of_records(&[0]).is_err());
    }

    #[test]
    fn fields_by_name() {
        let line = run(&format!("{SECOND} --fields pts_adjustment,duration,CRC_32"));
        assert_eq!(line, "4294967312\t\t1899700925\n");
        assert!(command(&words("--pts 1 --make null"), |_, _| Vec::new()).is_err());
        assert!(command(&words("--colour"), |_, _| Vec::new()).is_err());
        assert!(command(&[], |_, _| Vec::new()).is_err());
    }
}
