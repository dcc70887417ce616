//! Calls as lines for people, and the `decode` command.

use crate::people::card::{self, Call, Run};
use crate::people::record_lines::{self, hex, name_text, number, Line};
use crate::reading;
use crate::rules::{MICROSECOND, SECOND};
use crate::streams::Streams;
use rules::right::READING;

/// A call in the words of J.280's tables.
pub fn call_line(call: &Call) -> String {
    match call {
        Call::Open(conn) => format!("{conn} open"),
        Call::Close(conn) => format!("{conn} close"),
        Call::Tick(seconds, micros) => format!("tick Seconds={seconds} MicroSeconds={micros}"),
        Call::Message(conn, bytes) => format!("{conn} {}", message_line(bytes)),
    }
}

/// A whole message; what does not have its kind's size is shown as bytes.
fn message_line(bytes: &[u8]) -> String {
    let id = u16::from_be_bytes([bytes[0], bytes[1]]);
    let size = u16::from_be_bytes([bytes[2], bytes[3]]);
    let data = &bytes[8..];
    let fields = match (id, data.len()) {
        (0x0001, 66..) => init_line(data),
        (0x0005, 8) => format!("time={}", wire_time(data, 0)),
        (0x0007, 33..) => splice_line(data).unwrap_or(format!("data {}", shortened(data))),
        (0x000E, 4) => format!("id={}", number(word(data, 0))),
        (0x0003, 8) => {
            let (id, kind) = (number(word(data, 0)), number(word(data, 4)));
            format!("id={id} type={kind}")
        }
        (_, 0) => String::new(),
        _ => format!("data {}", shortened(data)),
    };
    let line = format!("{} size={size} {fields}", message_name(id));
    line.trim_end().to_string()
}

fn word(data: &[u8], at: usize) -> u32 {
    u32::from_be_bytes([data[at], data[at + 1], data[at + 2], data[at + 3]])
}

fn wire_time(data: &[u8], at: usize) -> String {
    let (seconds, micros) = (word(data, at), word(data, at + 4));
    if micros > 999_999 {
        return format!("{seconds}:{micros}");
    }
    format!("{seconds}.{micros:06}")
}

fn init_line(data: &[u8]) -> String {
    // What is no Hardware_Config counts to the rest.
    let hardware = READING.hardware(data).unwrap_or_default();
    let mut line = format!(
        "revision={} name={} splicer={}",
        u16::from_be_bytes([data[0], data[1]]),
        name_text(&data[2..34]),
        name_text(&data[34..66]),
    );
    if !hardware.is_empty() {
        line += &format!(" hardware={}", shortened(&hardware).replace(' ', ""));
    }
    format!("{line} rest {} bytes", data.len() - 66 - hardware.len())
}

/// A Splice_Request, if its parts stand where they should.
fn splice_line(data: &[u8]) -> Option<String> {
    let reading::Tail { bytes, streams } = reading::tail_of(data).ok()?;
    let start = match word(data, 4) {
        0xFFFF_FFFF => format!("at={}", wire_time(data, 8)),
        prior => format!("prior={prior}"),
    };
    let mut line = format!(
        "id={} {start} service={}{} duration={} event={} postblack={} access={} override={} return={}",
        number(word(data, 0)),
        u16::from_be_bytes([data[16], data[17]]),
        streams.map_or(String::new(), |streams| streams_words(&streams)),
        number(word(bytes, 0)),
        number(word(bytes, 4)),
        word(bytes, 8),
        bytes[12],
        bytes[13],
        bytes[14]
    );
    if bytes.len() > 15 {
        if let Ok(mux) = READING.mux_of(&bytes[15..]) {
            line += &format!(" mux={mux}");
        }
        line += &format!(" desc {}", shortened(&bytes[15..]));
    }
    Some(line)
}

/// Separate PIDs in the words of a scenario.
fn streams_words(streams: &Streams) -> String {
    let mut text = format!(" pcr={}", streams.pcr_pid);
    for s in &streams.list {
        let rates = [s.average, s.highest, s.lowest].map(|rate| number(rate as u32));
        text += &format!(" stream={}:{}:{}", s.pid, s.kind, rates.join(":"));
        text += &format!(":{}:{}", s.width, s.height);
        if !s.kept.is_empty() {
            text += &format!(":{}", shortened(&s.kept).replace(' ', ""));
        }
    }
    text
}

fn shortened(bytes: &[u8]) -> String {
    if bytes.len() <= 64 {
        return hex(bytes);
    }
    format!("{} ... ({} bytes)", hex(&bytes[..32]), bytes.len())
}

/// J.280, Table 7-2.
fn message_name(id: u16) -> String {
    let names = [
        "General_Response",
        "Init_Request",
        "Init_Response",
        "ExtendedData_Request",
        "ExtendedData_Response",
        "Alive_Request",
        "Alive_Response",
        "Splice_Request",
        "Splice_Response",
        "SpliceComplete_Response",
        "GetConfig_Request",
        "GetConfig_Response",
        "Cue_Request",
        "Cue_Response",
        "Abort_Request",
        "Abort_Response",
        "TearDownFeed_Request",
        "TearDownFeed_Response",
    ];
    match names.get(id as usize) {
        Some(name) => name.to_string(),
        None => format!("message 0x{id:04X}"),
    }
}

/// A time in ninths as seconds; a rest below a microsecond is added in ninths.
pub fn time_text(time: u64) -> String {
    let text = format!("{}.{:06}", time / SECOND, time % SECOND / MICROSECOND);
    match time % MICROSECOND {
        0 => text,
        rest => format!("{text}+{rest}/9"),
    }
}

/// Where the found output first leaves what the second program wrote: the number of calls
/// that agree, and the place in the output where the next call's bytes begin.
pub fn agreement(run: &Run, output: &[u8]) -> (usize, usize, bool) {
    let mut at = 0;
    for (index, done) in run.calls.iter().enumerate() {
        let to = at + done.output.len();
        if output.get(at..to) != Some(&done.output[..]) {
            return (index, at, false);
        }
        at = to;
    }
    (run.calls.len(), at, at == output.len())
}

/// Calls and the records found in the output, interleaved. True if they are the second program's own.
pub fn decode(input: &[u8], output: &[u8]) -> (String, bool) {
    let run = card::run(input);
    let (agreed, at, same) = agreement(&run, output);
    let mut text = String::new();
    let mut clock = "0.000000".to_string();
    for done in &run.calls[..agreed] {
        if let (Call::Tick(seconds, micros), false) = (&done.call, done.output.starts_with(&[0x45])) {
            clock = format!("{seconds}.{micros:06}");
        }
        text += &format!("{clock:>17}  > {}\n", call_line(&done.call));
        for item in record_lines::items(&done.output) {
            text += &format!("{clock:>17}  < {}\n", item.line());
        }
    }
    if same {
        let last = run.calls.last().map_or(0, |d| d.to);
        text += &format!("{} ({} bytes not read)\n", card::stop_line(run.stop), input.len() - last);
        return (text, true);
    }
    text += &differing(&run, agreed, &output[at..]);
    (text, false)
}

/// The first call that differs, what the second program wrote for it, and what was found.
pub fn differing(run: &Run, call: usize, found: &[u8]) -> String {
    let mut text = "DIFFERS from the second program here.\n".to_string();
    let mut expected = 0;
    match run.calls.get(call) {
        Some(done) => {
            text += &format!("  call {} > {}\n", call + 1, call_line(&done.call));
            let items = record_lines::items(&done.output);
            expected = items.len();
            for item in items {
                text += &format!("  expected < {}\n", item.line());
            }
        }
        None => text += "  after the last call\n",
    }
    if expected == 0 {
        text += "  expected nothing\n";
    }
    let items = record_lines::items(found);
    for item in items.iter().take(expected + 4) {
        text += &format!("  got      < {}\n", item.line());
    }
    if items.is_empty() {
        text += "  got nothing more\n";
    }
    text
}

#[cfg(test)]
mod tests {
    use super::*;
    use crate::people::scenario;

    fn recording(text: &str) -> (Vec<u8>, Vec<u8>) {
        let input = scenario::input_of(&scenario::parse(text).unwrap());
        let output = card::run(&input).output();
        (input, output)
    }

    const DAY: &str = "> open 0\n> init 0\n> tick 1000\n> splice 0 id=1 at=1003 duration=90000\n\
                       > tick 1003\n> abort 0 id=1\n> close 1\n";

    #[test]
    fn a_recording_becomes_lines() {
        let (input, output) = recording(DAY);
        let (text, same) = decode(&input, &output);
        assert!(same);
        let lines: Vec<&str> = text.lines().map(str::trim).collect();
        assert_eq!(lines[0], "0.000000  > 0 open");
        assert_eq!(
            lines[4],
            "1000.000000  > 0 Splice_Request size=33 id=1 at=1003.000000 service=1 \
             duration=90000 event=0xFFFFFFFF postblack=0 access=0 override=0 return=1"
        );
        assert_eq!(lines[5], "1000.000000  < 0 Splice_Response 100 (Successful Response) id=1");
        assert_eq!(
            lines[10],
            "1003.000000  < 0 SpliceComplete_Response 116 (Insertion Aborted) id=1 flag=1 \
             bitrate=0 played=0"
        );
        assert_eq!(lines[12], "1003.000000  < refused 7");
    }

    #[test]
    fn separate_pids_are_shown() {
        let words = "id=1 at=1003.000000 service=65535 pcr=49 stream=50:27:4000000:6000000:0xFFFFFFFF:\
                     1920:1080:0501AA stream=49:129:1:2:3:65535:65535 duration=90000";
        let text = format!("> open 0\n> init 0\n> splice 0 {words}\n");
        let (input, output) = recording(&text);
        let (text, _) = decode(&input, &output);
        let line = format!("Splice_Request size=84 {words} event=0xFFFFFFFF");
        assert!(text.contains(&line), "{text}");
        // What is not laid out so is shown as bytes.
        let (input, output) = recording("> open 0\n> splice 0 id=1 at=5 duration=1 pcr=1 pids=17\n");
        let (text, _) = decode(&input, &output);
        assert!(text.contains("size=39 data 00 00 00 01 FF"), "{text}");
    }

    #[test]
    fn the_mux_value_of_a_request_is_shown() {
        let told = |desc: &str| {
            let text = format!("> open 0\n> splice 0 id=1 at=5 duration=1 desc={desc}\n");
            let (input, output) = recording(&text);
            decode(&input, &output).0
        };
        let two = told("0205534150490702055341504903");
        assert!(two.contains("return=1 mux=3 desc 02 05 53"), "{two}");
        let foreign = told("010453415049");
        assert!(foreign.contains("return=1 mux=5 desc 01 04"), "{foreign}");
        // A bad one has no value.
        let bad = told("0205534150490B");
        assert!(bad.contains("return=1 desc 02 05 53"), "{bad}");
    }

    #[test]
    fn a_difference_is_told() {
        let (input, mut output) = recording(DAY);
        let last = output.len() - 1;
        output[last] = 1;
        let (text, same) = decode(&input, &output);
        assert!(!same);
        assert!(text.contains("expected < refused 7"), "{text}");
        assert!(text.contains("got      < refused 1"), "{text}");
        output.truncate(last - 1);
        assert!(decode(&input, &output).0.contains("got nothing more"));
    }

    #[test]
    fn ninths_are_shown() {
        assert_eq!(time_text(9_000_000 + 9 + 4), "1.000001+4/9");
        assert_eq!(time_text(9_297_000_000), "1033.000000");
    }
}
