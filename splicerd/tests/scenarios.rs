//! The scenarios of the second program, worked by hand, over sockets with the clock that is moved by hand: every answer byte for byte,
//! what is read of the state, and the recording byte for byte.

mod common;

use common::{message, Splicerd};
use model::people::scenario::{parse, Step};
use std::collections::BTreeMap;
use std::io::Write;
use std::net::TcpStream;

/// What sockets cannot make, and why. Of the others, calls that are refused with 1, 6 or 7 are left out, as a driver of sockets makes
/// none and they change nothing: a connection above 3, one opened twice, one that is not open.
const NOT: [(&str, &str); 3] = [
    ("02-rolling-", "a rolling card's calls: splicerd has a clock"),
    ("01-card-", "the card program's own input: cut records, unknown marks, what stops it"),
    ("01-house-number-4", "it goes on with a connection after 4, which splicerd closes then (tests/sockets.rs has that)"),
];

/// Several calls of the card program's input in one line, refusals among them; nothing behind them needs them: left out.
const RAW: [&str; 3] = ["7.1-bytes", "01-rehearsed-all", "01-whole-case"];

/// A scenario at work: sockets by the scenario's numbers, and the number that the channel gave to each.
struct Run {
    splicerd: Splicerd,
    sockets: BTreeMap<u8, TcpStream>,
    seats: BTreeMap<u8, u8>,
    /// The same, of those that were closed too.
    was: BTreeMap<u8, u8>,
    clock: (u32, u32),
    /// What the recording must be.
    recorded: Vec<u8>,
}

impl Run {
    fn step(&mut self, step: &Step) -> Result<(), String> {
        if let Some(cue) = &step.cue {
            return self.cue(cue, &step.expected);
        }
        if step.is_read() {
            return self.read(step);
        }
        if let ([0x45, 1 | 6 | 7], [0x4F | 0x43 | 0x4D, ..]) = (&step.expected[..], &step.input[..]) {
            return Ok(());
        }
        match step.input[..] {
            [0x4F, c] if step.expected.is_empty() => {
                let new = self.splicerd.connect();
                if self.sockets.insert(c, new).is_some() {
                    return Err("opened twice".into());
                }
                Ok(())
            }
            [0x43, c] => self.close(c, &step.expected),
            [0x54, ..] => self.tick(step),
            [0x4D, c, ..] => self.message(c, step),
            _ => Err("no call of a socket".into()),
        }
    }

    fn tick(&mut self, step: &Step) -> Result<(), String> {
        let word = |at: usize| u32::from_be_bytes([step.input[at], step.input[at + 1], step.input[at + 2], step.input[at + 3]]);
        let to = (word(2), word(6));
        let wanted = match step.expected[..] {
            [0x45, 3] => 409,
            [0x45, 8] => 400,
            _ => 200,
        };
        let status = self.splicerd.clock(to.0, to.1);
        if status != wanted {
            return Err(format!("status {status}"));
        }
        if status == 200 {
            if to != self.clock {
                self.recorded.extend_from_slice(&step.input);
                self.recorded.extend(self.mapped(&step.expected));
            }
            self.clock = to;
            return self.answers(&step.expected);
        }
        Ok(())
    }

    fn message(&mut self, c: u8, step: &Step) -> Result<(), String> {
        let sent = &step.input[2..];
        let names = splicerd::wire::named(sent) == Some(b"CH1");
        if names && !self.seats.contains_key(&c) {
            let free = (0..4).find(|n| self.seats.values().all(|held| held != n)).ok_or("no free number")?;
            self.seats.insert(c, free);
            self.was.insert(c, free);
            self.recorded.extend([0x4F, free]);
        }
        // without an answer it is waited until it was handled
        let silent = step.expected.is_empty() && self.seats.contains_key(&c);
        let calls = if silent { self.splicerd.figure("splicer_calls_total") } else { 0 };
        let socket = self.sockets.get_mut(&c).ok_or("not open")?;
        socket.write_all(sent).map_err(|error| error.to_string())?;
        if let Some(seat) = self.seats.get(&c) {
            self.recorded.extend([0x4D, *seat]);
            self.recorded.extend_from_slice(sent);
            self.recorded.extend(self.mapped(&step.expected));
        }
        if silent {
            self.splicerd.until("the call", || self.splicerd.figure("splicer_calls_total") > calls);
        }
        self.answers(&step.expected)
    }

    fn close(&mut self, c: u8, expected: &[u8]) -> Result<(), String> {
        self.sockets.remove(&c).ok_or("not open")?;
        let Some(seat) = self.seats.get(&c).copied() else {
            return Ok(());
        };
        self.recorded.extend([0x43, seat]);
        self.recorded.extend(self.mapped(expected));
        self.seats.remove(&c);
        let held = self.seats.len() as u64;
        self.splicerd.until("the close", || self.splicerd.figure("splicer_connections") == held);
        Ok(())
    }

    fn cue(&mut self, cue: &model::people::cue_call::Given, expected: &[u8]) -> Result<(), String> {
        let section = splicerd::words::hex(&cue.section);
        let (pts, seconds, micros) = (cue.pts, cue.seconds, cue.micros);
        let body =
            format!("{{\"channel\":\"CH1\",\"section\":\"{section}\",\"pts\":{pts},\"seconds\":{seconds},\"micros\":{micros}}}");
        let (status, said) = self.splicerd.ask("POST /cue", "", &body);
        // 0x51, any; length 2, section, PTS 8, Seconds 4, MicroSeconds 4; of a longer section 513 bytes
        let kept = &cue.section[..cue.section.len().min(513)];
        self.recorded.extend([&[0x51, 0][..], &(kept.len() as u16).to_be_bytes(), kept, &pts.to_be_bytes()].concat());
        self.recorded.extend([seconds, micros].map(u32::to_be_bytes).concat());
        self.recorded.extend(self.mapped(expected));
        match expected {
            [0x45, number] if status == 422 && said.contains(&format!("\"refused\":{number}}}")) => Ok(()),
            [0x45, number] => Err(format!("refused {number} wanted, status {status}: {said}")),
            _ if status == 200 => self.answers(expected),
            _ => Err(format!("status {status}: {said}")),
        }
    }

    /// Each record to the socket that it is for, byte for byte.
    fn answers(&mut self, expected: &[u8]) -> Result<(), String> {
        for record in splicer::records(expected) {
            let socket = self.sockets.get_mut(&record.connection).ok_or("a record for a closed connection")?;
            let came = message(socket);
            if came != record.message {
                return Err(format!("{:02X?} came", came));
            }
        }
        Ok(())
    }

    /// The records with the numbers that the channel gave; a cue's go from 0 upward.
    fn mapped(&self, expected: &[u8]) -> Vec<u8> {
        if let [0x45, _] = expected {
            return expected.to_vec();
        }
        let of = |c: u8| self.seats.get(&c).copied().unwrap_or(c);
        let mut all: Vec<(u8, &[u8])> = splicer::records(expected).map(|r| (of(r.connection), r.message)).collect();
        if all.iter().all(|(_, m)| m[1] == 0x0C || (m[1] == 0 && m[5] == 117)) {
            all.sort_by_key(|(seat, _)| *seat);
        }
        all.iter().flat_map(|(seat, m)| [&[0x52, *seat][..], m].concat()).collect()
    }

    /// What is read of the state here, in the words of a scenario: `mux`, `map` and `rows`.
    fn read(&mut self, step: &Step) -> Result<(), String> {
        let state = self.splicerd.state();
        let channel = &state["channels"][0];
        let on_air = &channel["on_air"];
        let wanted = self.seated(step.read.as_deref().unwrap_or_default());
        let found = match wanted.split(' ').next().unwrap_or_default() {
            "mux" => format!("mux {}", on_air["mux"].as_u64().unwrap_or(5)),
            "map" => format!("map {}", if on_air.is_null() { "primary" } else { "insertion" }),
            "rows" => rows_text(channel)?,
            other => return Err(format!("{other} is not read over sockets")),
        };
        if found == wanted {
            Ok(())
        } else {
            Err(found)
        }
    }

    /// What a scenario's line says, with the numbers that its connections have here.
    fn seated(&self, wanted: &str) -> String {
        let row = |text: &str| match text.split_once(':') {
            Some((c, rest)) => {
                let c: u8 = c.parse().unwrap_or(u8::MAX);
                format!("{}:{rest}", self.was.get(&c).copied().unwrap_or(c))
            }
            None => text.to_string(),
        };
        wanted.split(' ').map(row).collect::<Vec<_>>().join(" ")
    }
}

/// What ended lately, the newest first.
fn rows_text(channel: &serde_json::Value) -> Result<String, String> {
    let keys = ["connection", "session", "event", "result", "played_ticks"];
    let rows = channel["ended"].as_array().ok_or("no rows")?.iter();
    let text = rows.map(|row| keys.map(|key| model::people::looks::number(row[key].as_u64().unwrap_or(u64::MAX))).join(":"));
    Ok(std::iter::once("rows".to_string()).chain(text).collect::<Vec<_>>().join(" "))
}

/// Whether its bytes are more than one call.
fn is_several(step: &Step) -> bool {
    match step.input[..] {
        [0x4F | 0x43, _] => false,
        [0x4D, _, _, _, a, b, ..] => step.input.len() != 10 + usize::from(u16::from_be_bytes([a, b])),
        [0x54, ..] => step.input.len() != 10,
        _ => !step.is_read() && step.cue.is_none(),
    }
}

fn run(name: &str, text: &str) -> Result<(), String> {
    let steps = parse(text)?;
    let splicerd = Splicerd::start(&format!("scenario-{name}"), &[]);
    let mut run = Run {
        splicerd,
        sockets: BTreeMap::new(),
        seats: BTreeMap::new(),
        was: BTreeMap::new(),
        clock: (0, 0),
        recorded: Vec::new(),
    };
    for step in steps.iter().filter(|step| !(RAW.contains(&name) && is_several(step))) {
        run.step(step).map_err(|why| format!("{name}, line {}: {}: {why}", step.line, step.text))?;
    }
    let recorded = run.splicerd.recording("CH1");
    if recorded != run.recorded {
        let at = recorded.iter().zip(&run.recorded).take_while(|(a, b)| a == b).count();
        return Err(format!("{name}: the recording differs at byte {at} of {}", run.recorded.len()));
    }
    // the referee has heard every call and finds nothing; behind a cue it does not judge
    let referee = &run.splicerd.state()["channels"][0]["referee"];
    let cued = steps.iter().any(|step| step.cue.is_some());
    if referee["differs"] != false || referee["judges"] == cued {
        return Err(format!("{name}: the referee: {}", referee["text"]));
    }
    Ok(())
}

#[test]
fn scenarios_over_sockets() {
    let folder = std::path::Path::new(env!("CARGO_MANIFEST_DIR")).join("../model/scenarios");
    let mut made = 0;
    let mut wrong = Vec::new();
    for file in std::fs::read_dir(folder).expect("the scenarios") {
        let path = file.expect("a file").path();
        let name = path.file_stem().expect("a name").to_string_lossy().into_owned();
        if path.extension().is_none_or(|e| e != "txt") || NOT.iter().any(|(begin, _)| name.starts_with(begin)) {
            continue;
        }
        made += 1;
        wrong.extend(run(&name, &std::fs::read_to_string(&path).expect("a scenario")).err());
    }
    assert!(wrong.is_empty(), "{} of {made} differ:\n{}", wrong.len(), wrong.join("\n"));
    assert!(made > 90, "{made} scenarios");
}
