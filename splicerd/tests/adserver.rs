//! The client against the splicer: what it says, and its status.

mod common;

use common::Splicerd;
use std::process::{Command, Output, Stdio};

fn adserver(splicerd: &Splicerd, words: &[&str]) -> Command {
    let mut command = Command::new(env!("CARGO_BIN_EXE_adserver"));
    command.args(["--to", &splicerd.servers.to_string()]).args(words).stdin(Stdio::null());
    command.stdout(Stdio::piped()).stderr(Stdio::piped());
    command
}

fn said(output: &Output) -> (Option<i32>, String) {
    (output.status.code(), String::from_utf8_lossy(&output.stdout).into_owned())
}

#[test]
fn one_command_each() {
    let splicerd = Splicerd::start("ad-one", &[]);
    let run = |words: &[&str]| said(&adserver(&splicerd, words).output().unwrap());
    let init = "Init_Response 100 Successful Response, channel CH1\n";
    assert_eq!(run(&["init"]), (Some(0), init.into()));
    let alive = "Alive_Response 100 Successful Response, primary channel, 1970-01-01T00:00:00.000000Z\n";
    assert_eq!(run(&["alive"]), (Some(0), format!("{init}{alive}")));
    assert_eq!(run(&["abort", "7"]), (Some(1), format!("{init}Abort_Response 121 Invalid SessionID, session 7\n")));
    assert_eq!(run(&["extended", "7"]).0, Some(1));
    assert_eq!(run(&["config"]).0, Some(0));
    let (status, other) = run(&["--channel", "CH2", "init"]);
    assert_eq!((status, other), (Some(1), "Init_Response 104 Invalid/Unknown ChannelName, channel CH1\n".into()));
    let (status, lines) = run(&["alive", "--json"]);
    let last: serde_json::Value = serde_json::from_str(lines.lines().last().unwrap()).unwrap();
    assert_eq!((status, &last["state"], &last["result"]), (Some(0), &1.into(), &100.into()));
    assert_eq!(run(&["splice", "--in", "2s"]).0, Some(1));
}

#[test]
fn no_connection_and_usage_are_2() {
    let mut splicerd = Splicerd::start("ad-none", &[]);
    splicerd.end();
    assert_eq!(adserver(&splicerd, &["init"]).output().unwrap().status.code(), Some(2));
    let output = adserver(&splicerd, &["no-such-command"]).output().unwrap();
    assert_eq!((output.status.code(), String::from_utf8_lossy(&output.stderr).lines().count()), (Some(2), 1));
}

#[test]
fn a_spot_from_its_request_to_its_end() {
    let splicerd = Splicerd::start("ad-spot", &["--clock", "from=1000,speed=50"]);
    let words = ["splice", "--in", "60s", "--duration", "10s", "--session", "7", "--event", "4711", "--access", "9", "--override"];
    let (status, lines) = said(&adserver(&splicerd, &words).output().unwrap());
    let lines: Vec<&str> = lines.lines().skip(1).collect();
    let wanted = [
        "Splice_Response 100 Successful Response, session 7",
        "SpliceComplete_Response 100 Successful Response, session 7 starts",
        "SpliceComplete_Response 100 Successful Response, session 7 ends, 10.000 s on air",
    ];
    assert_eq!((status, lines), (Some(0), wanted.to_vec()));
}

#[test]
fn a_schedule_is_played() {
    let splicerd = Splicerd::start("ad-play", &["--clock", "from=1000,speed=100"]);
    let script = splicerd.folder.join("script");
    let lines: Vec<String> = (0..12).map(|n| format!("+{}s 15s event={n}", 300 + 30 * n)).collect();
    std::fs::write(&script, format!("# twelve and a linked one\n{}\n+0s 5s linked\n", lines.join("\n"))).unwrap();
    let (status, said) = said(&adserver(&splicerd, &["play", script.to_str().unwrap()]).output().unwrap());
    assert_eq!((status, said.lines().last()), (Some(0), Some("13 spots ended with 100, 0 otherwise")));
}

#[test]
fn cues_are_waited_for_and_answered() {
    let splicerd = Splicerd::start("ad-cues", &[]);
    let child = adserver(&splicerd, &["cues", "--count", "1"]).spawn().unwrap();
    splicerd.until("it is initialised", || splicerd.state()["channels"][0]["connections"][0]["state"] == "initialised");
    let section = "FC301600000000000000FFF00506FE00015F9000000AF056B0";
    let body = serde_json::json!({"channel": "CH1", "section": section, "pts": 0, "seconds": 5, "micros": 0}).to_string();
    assert_eq!(splicerd.ask("POST /cue", "", &body).0, 200);
    let (status, lines) = said(&child.wait_with_output().unwrap());
    assert!(status == Some(0) && lines.contains("Cue_Request for 1970-01-01T00:00:06.000000Z"), "{lines}");
    splicerd.until_said("Cue_Response");
}

#[test]
fn a_load_with_drops_loses_no_answer() {
    let splicerd = Splicerd::start("ad-load", &["--channel", "CH1", "--channel", "CH2", "--clock", "utc"]);
    let words = ["--channel", "CH", "load", "--channels", "2", "--for", "1s", "--drop-rate", "0.01", "--json"];
    let (status, lines) = said(&adserver(&splicerd, &words).output().unwrap());
    let sums: serde_json::Value = serde_json::from_str(lines.trim()).unwrap();
    assert!(status == Some(0) && sums["answers"].as_u64() > Some(100) && sums["lost"] == 0, "{lines}");
}
