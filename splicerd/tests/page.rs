//! The page's requests: who may ask, what is answered, and that names are text.

mod common;

use common::{message, Splicerd};
use splicerd::wire;
use std::io::{BufRead, BufReader, Write};
use std::net::TcpStream;

const CUE: &str = "FC301600000000000000FFF00506FE00015F9000000AF056B0";

#[test]
fn other_hosts_and_origins_are_refused() {
    let splicerd = Splicerd::start("origin", &[]);
    let own = splicerd.page.to_string();
    let status = |headers: &str| splicerd.ask("GET /state", headers, "").0;
    assert_eq!(status(""), 200);
    assert_eq!(status(&format!("Host: localhost:{}\r\n", splicerd.page.port())), 200);
    assert_eq!(status("Host: splicer.example\r\n"), 403);
    assert_eq!(status(&format!("Host: {own}\r\nOrigin: http://{own}\r\n")), 200);
    assert_eq!(status(&format!("Host: {own}\r\nOrigin: http://evil.example\r\n")), 403);
    assert_eq!(status(&format!("Host: {own}\r\nOrigin: null\r\n")), 403);
    assert_eq!(status(&format!("Host: {own}\r\nSec-Fetch-Site: cross-site\r\n")), 403);
    // a refused one does nothing
    let body = "{\"seconds\":5,\"micros\":0}";
    assert_eq!(splicerd.ask("POST /clock", "Host: evil.example\r\n", body).0, 403);
    assert_eq!(splicerd.state()["clock"]["micros"], 0);
}

#[test]
fn bodies_and_paths() {
    let splicerd = Splicerd::start("bodies", &[]);
    assert_eq!(splicerd.ask("POST /clock", "", &"x".repeat(65_537)).0, 413);
    assert_eq!(splicerd.ask("POST /clock", "", &"x".repeat(65_536)).0, 400);
    assert_eq!(splicerd.get("/").0, 200);
    assert_eq!(splicerd.get("/nothing").0, 404);
    assert_eq!(splicerd.ask("POST /state", "", "").0, 405);
    assert_eq!(splicerd.get("/recording/../Cargo.toml").0, 404);
    assert_eq!(splicerd.get("/recording/%2E%2E%2Fx.rec").0, 404);
    let state = splicerd.state();
    let file = state["channels"][0]["recording"]["file"].as_str().unwrap();
    let _stream = splicerd.initialised(b"CH1");
    let (status, body) = splicerd.get(&format!("/recording/{file}"));
    assert_eq!((status, &body.as_bytes()[..2]), (200, &[0x4F, 0][..]));
}

#[test]
fn no_recording_without_a_folder() {
    let folder = common::folder("none");
    let splicerd = Splicerd::run(&["--listen", "[::1]:0", "--page", "[::1]:0"], folder);
    assert_eq!(splicerd.get("/recording/CH1-1.rec").0, 404);
    assert!(splicerd.state()["channels"][0]["recording"].is_null());
    // the clock is not moved by hand
    assert_eq!(splicerd.clock(u32::MAX, 0), 409);
}

#[test]
fn the_clock_never_goes_back() {
    let splicerd = Splicerd::start("clock", &["--channel", "A", "--channel", "B"]);
    assert_eq!(splicerd.clock(10, 5), 200);
    assert_eq!(splicerd.clock(10, 4), 409);
    assert_eq!(splicerd.clock(10, 5), 200);
    assert_eq!(splicerd.clock(11, 1_000_000), 400);
    assert_eq!(splicerd.ask("POST /clock", "", "{\"seconds\":-1,\"micros\":0}").0, 400);
    for channel in splicerd.state()["channels"].as_array().unwrap() {
        assert_eq!(channel["clock"]["micros"], 10_000_005);
        assert_eq!(channel["primary_today_micros"], 10_000_005);
    }
}

#[test]
fn cues_by_the_page_and_by_a_file() {
    let folder = common::folder("cues-file");
    let file = folder.join("cues.txt");
    std::fs::write(&file, format!("# a break\n20 B {CUE} 0 5\n")).unwrap();
    let splicerd = Splicerd::start("cues", &["--channel", "A", "--channel", "B", "--cues", file.to_str().unwrap()]);
    let (mut a, mut b) = (splicerd.initialised(b"A"), splicerd.initialised(b"B"));
    let cue = |channel: &str, section: &str, micros: u32| {
        let body = format!("{{\"channel\":\"{channel}\",\"section\":\"{section}\",\"pts\":0,\"seconds\":5,\"micros\":{micros}}}");
        splicerd.ask("POST /cue", "", &body)
    };
    assert_eq!(cue("A", CUE, 0).0, 200);
    // splice time 90,000 ticks behind the PTS: 5 s and 1 s
    let sent = message(&mut a);
    assert_eq!((&sent[..2], &sent[8..16]), (&[0, 12][..], &[0, 0, 0, 6, 0, 0, 0, 0][..]));
    assert_eq!(sent[16..], splicerd::cues::hex(CUE).unwrap());
    assert_eq!(cue("A", "/DARAAAAAAAAAP/wAAAAAHpPv/8=", 0).0, 200);
    assert_eq!(message(&mut a)[..2], [0, 12]);
    assert_eq!(cue("C", CUE, 0).0, 404);
    assert_eq!((cue("A", "FC30", 0).0, cue("A", CUE, 1_000_000).0, cue("A", "x", 0).0), (422, 422, 400));
    assert_eq!(splicerd.clock(19, 0), 200);
    assert_eq!(splicerd.clock(20, 0), 200);
    assert_eq!(message(&mut b), sent);
    std::fs::remove_dir_all(folder).unwrap();
}

#[test]
fn a_map_section_is_given_on_request_and_recorded() {
    let folder = common::folder("maps-file");
    std::fs::write(folder.join("primary"), [1, 2, 3]).unwrap();
    std::fs::write(folder.join("channels"), "A primary\nB\n").unwrap();
    let splicerd = Splicerd::start("maps", &["--channels", folder.join("channels").to_str().unwrap()]);
    let mut a = splicerd.initialised(b"A");
    a.write_all(&wire::config()).unwrap();
    assert!(message(&mut a).ends_with(&[1, 2, 3]));
    assert_eq!(splicerd.recording("A")[34..41], [0x4C, 0, 0, 3, 1, 2, 3]);
    assert_eq!(splicerd.recording("B").len(), 34);
    std::fs::remove_dir_all(folder).unwrap();
}

#[test]
fn the_referee_judges_every_call() {
    let splicerd = Splicerd::start("judged", &["--channel", "A", "--channel", "B"]);
    let mut a = splicerd.initialised(b"A");
    // open and Init_Request; then a tick and an Alive_Request
    assert_eq!(splicerd.state()["channels"][0]["referee"]["text"], "2 calls, all in order");
    assert_eq!(splicerd.clock(5, 0), 200);
    a.write_all(&wire::alive(5, 0)).unwrap();
    assert_eq!(message(&mut a)[..2], [0, 6]);
    let state = splicerd.state();
    let (first, second) = (&state["channels"][0]["referee"], &state["channels"][1]["referee"]);
    assert_eq!((&first["good"], &first["judges"], &first["differs"]), (&4.into(), &true.into(), &false.into()));
    assert_eq!(second["text"], "1 calls, all in order");
    assert_eq!(splicerd.figure("splicer_referee_differs{channel=\"A\""), 0);
    splicerd.until_said("referee: judges every call of 2 of 2 channels");
}

#[test]
fn a_difference_is_loud_and_stops_nothing() {
    // the referees hear the second call, the Init_Request's, with a bit of its answer changed
    let splicerd = Splicerd::start("misheard", &["--channel", "A", "--misheard", "2"]);
    let mut a = splicerd.initialised(b"A");
    splicerd.until_said("A: REFEREE DIFFERS: call 2, at byte 36: differs; still due 52");
    a.write_all(&wire::alive(0, 0)).unwrap();
    assert_eq!(message(&mut a)[..2], [0, 6]);
    let referee = &splicerd.state()["channels"][0]["referee"];
    assert_eq!((&referee["differs"], &referee["good"]), (&true.into(), &1.into()));
    assert!(referee["text"].as_str().unwrap().starts_with("call 2, at byte 36: differs"));
    assert_eq!(splicerd.figure("splicer_referee_differs{channel=\"A\""), 1);
    // that byte is the call's mark in the recording, behind the name and the open
    assert_eq!(splicerd.recording("A")[34..37], [0x4F, 0, 0x4D]);
    let loud = splicerd.log.lock().unwrap().iter().filter(|line| line.contains("REFEREE DIFFERS")).count();
    assert_eq!(loud, 1);
}

#[test]
fn what_the_referee_cannot_judge_is_said() {
    let folder = common::folder("outside-file");
    std::fs::write(folder.join("primary"), [1, 2, 3]).unwrap();
    std::fs::write(folder.join("channels"), "A primary\nB\n").unwrap();
    let splicerd = Splicerd::start("outside", &["--channels", folder.join("channels").to_str().unwrap()]);
    let _b = splicerd.initialised(b"B");
    let body = format!("{{\"channel\":\"B\",\"section\":\"{CUE}\",\"pts\":0,\"seconds\":5,\"micros\":0}}");
    assert_eq!(splicerd.ask("POST /cue", "", &body).0, 200);
    let state = splicerd.state();
    assert_eq!(state["channels"][0]["referee"]["text"], "not judged: sections");
    assert_eq!(state["channels"][1]["referee"]["text"], "not judged: cues; in order before: 2");
    assert_eq!(splicerd.figure("splicer_referee_judges{channel=\"B\""), 0);
    assert_eq!(splicerd.figure("splicer_referee_differs{channel=\"B\""), 0);
    splicerd.until_said("referee: judges every call of 1 of 2 channels");
    std::fs::remove_dir_all(folder).unwrap();
}

#[test]
fn names_from_the_wire_are_text() {
    let splicerd = Splicerd::start("names", &["--channel", "<b>&\"x"]);
    let mut stream = splicerd.initialised(b"<b>&\"x");
    stream.write_all(&wire::init(b"<script>alert(1)</script>", b"")).unwrap();
    assert_eq!(message(&mut stream)[4..6], [0, 104]);
    let state = splicerd.state();
    assert_eq!(state["channels"][0]["name"], "<b>&\"x");
    assert!(state["channels"][0]["calls"][0]["text"].as_str().unwrap().contains("<script>alert(1)</script>"));
    assert!(splicerd.get("/metrics").1.contains("splicer_connections{channel=\"<b>&\\\"x\"} 1"));
    // the page puts no text into its own markup
    let page = splicerd.get("/").1;
    assert!(page.contains("textContent"));
    assert!(!page.contains("innerHTML"));
    assert!(splicerd.recording("%3Cb%3E%26%22x").len() > 34);
}

#[test]
fn events_follow_what_happens() {
    let splicerd = Splicerd::start("events", &[]);
    let mut watching = TcpStream::connect(splicerd.page).unwrap();
    watching.set_read_timeout(Some(common::PATIENCE)).unwrap();
    write!(watching, "GET /events HTTP/1.1\r\nHost: {}\r\n\r\n", splicerd.page).unwrap();
    let mut lines = BufReader::new(watching).lines().map(Result::unwrap);
    let mut next = || {
        let line = lines.find(|line| line.starts_with("data: ")).unwrap();
        serde_json::from_str::<serde_json::Value>(&line[6..]).unwrap()
    };
    assert_eq!(next()["channels"][0]["connections"][0]["state"], "free");
    let _stream = splicerd.initialised(b"CH1");
    while next()["channels"][0]["connections"][0]["state"] != "initialised" {}
}
