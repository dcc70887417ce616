//! Good days: the example day and what the driver recorded, as lists, JSON, CSV and a page, and by
//! the filters.

mod common;

use common::{desk, recording, scratch};

#[test]
fn the_example_day_as_run() {
    let ran = desk(&["asrun", &recording("example-day.rec")], b"");
    assert_eq!(ran.status, 0);
    let lines = ran.lines();
    let expected = [
        "0 101 - 1 1970-01-12T13:56:40.000000Z 30.000000 1970-01-12T13:56:40.000000Z 1970-01-12T13:57:10.000000Z 30.000000 2700000 \
         played to its end",
        "0 202 - 1 1970-01-12T14:07:10.000000Z 30.000000 - - - - refused, 109: Splice Collision",
        "1 9000 - 1 1970-01-12T14:06:40.000000Z 30.000000 - - - - refused, 112: Splice_Request Was Too Late",
        "0 301 - 1 1970-01-12T14:16:40.000000Z 120.000000 1970-01-12T14:16:40.000000Z 1970-01-12T14:18:40.000000Z 90.000000 8100000 \
         played to its end",
        "0 402 - 1 1970-01-12T14:27:10.000000Z 30.000000 - 1970-01-12T14:26:50.000000Z - - aborted while waiting",
        "0 501 - 1 1970-01-12T14:32:20.000000Z 30.000000 - - - - refused, General_Response 103: Access Denied",
        "0 621 - 1 1970-01-12T14:46:40.000000Z 15.000000 - - - - refused, 114: Splice Queue Full",
        "primary channel 3190.000000 s 287100000 ticks",
        "sessions on air 410.000000 s 36900000 ticks",
        "together 3600.000000 s 324000000 ticks",
        "the clock went on by 3600.000000 s 324000000 ticks",
        "87 calls, every record as the rules give it",
    ];
    for line in expected {
        assert!(lines.contains(&line.to_string()), "{line}\n{}", ran.text());
    }
}

/// A record stands at its instant, not at the tick that wrote it: the driver's tick at 1,025 s
/// starts session 7 at 1,020 s.
#[test]
fn records_stand_at_their_instant() {
    let sport = recording("sport.rec");
    let ran = desk(
        &["list", "--raw", "--name", "SPORT", "--session", "7", &sport],
        b"",
    );
    let lines = ran.lines();
    let start = lines
        .iter()
        .find(|l| l.contains("SpliceTypeFlag=0"))
        .unwrap();
    assert!(
        start.contains("1020.000000 < 1 SpliceComplete_Response 100"),
        "{start}"
    );
    let ran = desk(&["asrun", "--raw", "--name", "SPORT", &sport], b"");
    let row = "1 7 - 1 1020.000000 10.000000 1020.000000 1025.000000 5.000000 450000 aborted while on air";
    assert!(ran.lines().contains(&row.to_string()), "{}", ran.text());
}

#[test]
fn filters() {
    let day = &recording("example-day.rec");
    let rows = |words: &[&str]| {
        let ran = desk(&[&["asrun", "--csv"], words, &[&day[..]]].concat(), b"");
        assert_eq!(ran.status, 0);
        let sessions = ran.text();
        let sessions = sessions
            .lines()
            .skip(1)
            .map(|l| l.split(',').nth(4).unwrap());
        sessions.map(str::to_string).collect::<Vec<_>>()
    };
    assert_eq!(rows(&[]).len(), 38);
    assert_eq!(
        rows(&["--connection", "1"]),
        ["9001", "9000", "9002", "9003", "9004"]
    );
    assert_eq!(rows(&["--session", "501"]), ["501"; 3]);
    assert_eq!(rows(&["--result=114"]), ["621"]);
    assert_eq!(
        rows(&["--from", "1001170", "--to", "1001500"]),
        ["201", "9001", "202", "9000"]
    );
    assert_eq!(
        rows(&["--from", "1970-01-12T14:26:00", "--to", "1970-01-12T14:27"]),
        ["401", "402", "403"]
    );
    let sums = desk(
        &[
            "asrun", "--raw", "--from", "1001800", "--to", "1001900", day,
        ],
        b"",
    );
    let lines = sums.lines();
    assert!(lines.contains(&"primary channel 0.000000 s 0 ticks".to_string()));
    assert!(lines.contains(&"sessions on air 100.000000 s 9000000 ticks".to_string()));
}

#[test]
fn json_and_csv() {
    let day = &recording("example-day.rec");
    let list = desk(&["list", "--json", "--session", "101", day], b"").text();
    assert!(
        list.starts_with("[\n {\"time\": \"1970-01-12T13:56:20.000000Z\", \"call\": 10, "),
        "{list}"
    );
    let fields = "\"message\": \"Splice_Request\", \"result\": null, \"words\": null, \"session\": 101, \"fields\": {\"SessionID\": 101, \
                  \"PriorSession\": 4294967295, \"time\": \"1970-01-12T13:56:40.000000Z\", \"ServiceID\": 1, \"Duration\": 2700000, ";
    assert!(list.contains(fields), "{list}");
    assert!(list.ends_with("}}\n]\n"));
    let csv = desk(&["asrun", "--csv", "--session", "202", day], b"").text();
    let expected = "scheduled,started,ended,connection,session,event,length_s,on_air_s,ticks,result,outcome\r\n\
                    1970-01-12T14:07:10.000000Z,,,0,202,4294967295,30.000000,,,109,\"refused, 109: Splice Collision\"\r\n";
    assert_eq!(csv, expected);
    let asrun = desk(&["asrun", "--json", "--raw", "--session", "202", day], b"").text();
    assert!(
        asrun.starts_with("{\"requests\": [\n {\"call\": 20, "),
        "{asrun}"
    );
    let sums = "],\n\"sums\": {\"from\": \"1000000.000000\", \"to\": \"1003600.000000\", \
                \"primary\": {\"seconds\": \"3190.000000\", \"ticks\": 287100000}, ";
    assert!(asrun.contains(sums), "{asrun}");
    let none = desk(&["check", "--json", day], b"").text();
    assert_eq!(none, "[\n]\n");
}

#[test]
fn the_page_of_the_example_day() {
    let path = scratch("day.html", b"");
    let ran = desk(
        &["timeline", "--html", &path, &recording("example-day.rec")],
        b"",
    );
    assert_eq!(ran.status, 0);
    let page = std::fs::read_to_string(path).unwrap();
    let count = |text: &str| page.matches(text).count();
    assert_eq!(
        count("<section class=\"lane\""),
        3,
        "output and two connections"
    );
    assert_eq!(count("<span class=\"label"), 38, "each request");
    assert_eq!(count("<i class=\"refused\" style"), 4);
    assert_eq!(count("<div class=\"bar covered k0\""), 1, "301 under 9002");
    // in the lane of the output and in that of connection 0
    assert_eq!(count("<div class=\"bar air k0\" style"), 30);
    assert_eq!(
        count("<i class=\"break\" style") + count("\"bar ruled\" style=\"left"),
        0
    );
    assert!(page.contains("every record as the rules give it"));
    assert!(page.contains("@media print"));
    assert!(page.contains("prefers-color-scheme: dark"));
    assert!(
        page.contains("<meta name=\"viewport\" content=\"width=device-width, initial-scale=1\">")
    );
    assert_eq!(count("<tr data-session=\"501\""), 3, "found by SessionID");
}

/// 25 ticks a second: 2.16 million calls, 500 spots of 30 s, one every 172 s. Each is asked for at its
/// 172 s, starts 20 s later and ends 30 s after that, between two ticks.
fn a_day() -> Vec<u8> {
    let tick = |k: u32| {
        let (s, us) = (1_774_656_000 + k / 25, k % 25 * 40_000);
        [&[0x54, 0][..], &s.to_be_bytes(), &us.to_be_bytes()].concat()
    };
    let name = [&b"CH1"[..], &[0; 29]].concat();
    let head = |conn: &[u8], id: u8, size: u8, result: u16| {
        [conn, &[0, 0, id, 0, size], &result.to_be_bytes(), &[255; 2]].concat()
    };
    let mut bytes = [tick(0), vec![0x4F, 0]].concat();
    let ask = head(&[0x4D], 1, 76, 65_535);
    bytes.extend(
        [
            &ask[..],
            &[0, 2],
            &name,
            &name,
            &[0, 8, 0, 1, 0, 1, 0, 1, 0, 0],
        ]
        .concat(),
    );
    bytes.extend([&head(&[0x52], 2, 34, 100)[..], &[0, 2], &name].concat());
    for k in 1..86_400 * 25 {
        bytes.extend(tick(k));
        let (spot, at) = ((k / (172 * 25)).to_be_bytes(), k % (172 * 25));
        let complete = |flag: u8, played: u32| {
            let data = [&spot[..], &[flag, 0, 0, 0, 0], &played.to_be_bytes()].concat();
            [head(&[0x52], 9, 13, 100), data].concat()
        };
        match at {
            _ if k >= 500 * 172 * 25 => {}
            1 => {
                let start = (1_774_656_000 + k / 25 + 20).to_be_bytes();
                let data = [&spot[..], &[255; 4], &start, &[0, 1, 0, 0], &[0, 1]].concat();
                let data = [
                    &data[..],
                    &2_700_000u32.to_be_bytes(),
                    &spot,
                    &[0; 4],
                    &[3, 0, 0],
                ]
                .concat();
                bytes.extend([head(&[0x4D], 7, 33, 65_535), data].concat());
                bytes.extend([&head(&[0x52], 8, 4, 100)[..], &spot].concat());
            }
            // 20 s and 65,536 microseconds; 30 s later
            502 => bytes.extend(complete(0, 0)),
            1_252 => bytes.extend(complete(1, 2_700_000)),
            _ => {}
        }
    }
    bytes
}

/// The sums by hand: 500 times 30 s, and the rest of a day less a tick of 40 ms.
#[test]
fn a_day_of_25_ticks_a_second_under_64_mb() {
    let path = scratch("day.rec", &a_day());
    let line = format!(
        "ulimit -v 65536 && exec {} asrun {path}",
        env!("CARGO_BIN_EXE_desk")
    );
    let ran = std::process::Command::new("sh")
        .args(["-c", &line])
        .output()
        .unwrap();
    let text = String::from_utf8(ran.stdout).unwrap();
    assert!(
        ran.status.success(),
        "{}",
        String::from_utf8_lossy(&ran.stderr)
    );
    let lines: Vec<&str> = text.lines().collect();
    let last = lines[lines.len() - 1];
    assert_eq!(last, "2160502 calls, every record as the rules give it");
    let sums = text.split_whitespace().collect::<Vec<_>>().join(" ");
    assert!(
        sums.contains("primary channel 71399.960000 s 6425996400 ticks"),
        "{sums}"
    );
    assert!(sums.contains("sessions on air 15000.000000 s 1350000000 ticks"));
    std::fs::remove_file(path).unwrap();
}

/// From the close at 1,002,720 s on (call 45): the session on air then was accepted before. What the file
/// says of it is known, the time of its end is not: no tick stands before it.
#[test]
fn a_day_from_its_middle() {
    let day = std::fs::read(recording("example-day.rec")).unwrap();
    let ran = desk(&["asrun", "--raw", "--middle"], &day[1_893..]);
    assert_eq!((ran.status, &ran.said[..]), (0, ""));
    let lines = ran.lines();
    let expected = [
        "0 501 - - - - - - - 1800000 its connection was lost while on air; asked for before the recording",
        "1 9003 - 1 1002725.000000 10.000000 1002725.000000 1002735.000000 10.000000 900000 played to its end",
        "43 calls from the middle of a day, not held to the rules: what waited and was on air before is not known",
    ];
    for line in expected {
        assert!(lines.contains(&line.to_string()), "{line}\n{}", ran.text());
    }
    let list = desk(&["list", "--raw", "--middle"], &day[1_893..]).lines();
    assert_eq!(list[0], "1 - > 0 close");
    let fresh = desk(&["check"], &day[1_893..]);
    assert_eq!(fresh.status, 1);
    assert!(fresh
        .said
        .contains("connection 0 was in use before it was opened"));
    // whole, it is held to the rules with --middle too
    let whole = desk(&["check", "--middle"], &day);
    assert_eq!((whole.status, &whole.said[..]), (0, ""));
    assert_eq!(
        whole.text(),
        "87 calls, every record as the rules give it\n"
    );
}

#[test]
fn bars_in_the_terminal() {
    let words = [
        "timeline", "--raw", "--width", "36", "--from", "1001780", "--to", "1001960",
    ];
    let ran = desk(
        &[&words[..], &[&recording("example-day.rec")]].concat(),
        b"",
    );
    let lines = ran.lines();
    assert!(
        lines.contains(&"output ____████████████████████████________".to_string()),
        "{}",
        ran.text()
    );
    assert!(
        lines.contains(&"0 301 ....████████------██████████ played to its end".to_string()),
        "{}",
        ran.text()
    );
    assert!(
        lines.contains(&"1 9002 ............██████ played to its end".to_string()),
        "{}",
        ran.text()
    );
}

/// A byte behind the zero of a name is no part of it, and no field shows it: the list says so.
#[test]
fn records_that_read_alike_are_said_to_differ() {
    let text = b"> open 0\n> tick 1000\n> init 0 name=CH1\n< 0 Init_Response 100 name=CH1\n";
    let made = desk(&["join", "--text", &scratch("alike.txt", text)], b"");
    assert_eq!(made.status, 0, "{}", made.said);
    let mut bytes = made.out;
    *bytes.last_mut().unwrap() = b'x';
    let ran = desk(&["check", &scratch("alike.rec", &bytes)], b"");
    assert_eq!(ran.status, 1);
    let lines = ran.lines();
    let said =
        "3 both read alike: they differ in bytes that no field shows, as behind the zero of a name";
    assert!(lines.iter().any(|l| l == said), "{lines:?}");
    let ran = desk(&["check", &recording("incident.rec")], b"");
    assert!(!ran.text().contains("read alike"));
}
