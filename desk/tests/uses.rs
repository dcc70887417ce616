//! Wrong uses and unreadable files: status 2 and one line that says what is wrong and where.

mod common;

use common::{desk, recording, scratch};

/// Status 2, nothing on standard output, one line that has these words.
fn wrong(words: &[&str], input: &[u8], says: &str) {
    let ran = desk(words, input);
    assert_eq!(ran.status, 2, "{words:?}: {}", ran.said);
    assert!(ran.out.is_empty(), "{words:?}");
    assert_eq!(ran.said.lines().count(), 1, "{words:?}: {}", ran.said);
    assert!(ran.said.contains(says), "{words:?}: {}", ran.said);
}

const DAY: &str = concat!(env!("CARGO_MANIFEST_DIR"), "/recordings/example-day.rec");

const USES: &[(&[&str], &str)] = &[
    (&[], "a command is missing"),
    (&["lists"], "no command 'lists'"),
    (&["--lists"], "no command '--lists'"),
    (&["list", "--width", "50", DAY], "no option --width"),
    (&["timeline", "--json", DAY], "no option --json"),
    (&["join", "--json", DAY, DAY], "no option --json"),
    (&["list", "--nome", "X", DAY], "no option --nome"),
    (&["list", "--raw=1", DAY], "--raw takes no value"),
    (
        &["list", "--json", "--csv", DAY],
        "--json and --csv at once",
    ),
    (&["list", DAY, "--from"], "--from needs a value"),
    (&["list", "--from", "noon", DAY], "--from 'noon': no time"),
    (&["list", "--to", "2001-02-29", DAY], "no time"),
    (
        &["list", "--from", "20", "--to", "10", DAY],
        "--from is not before --to",
    ),
    (&["list", "--connection", "4", DAY], "not 0 to 3"),
    (&["asrun", "--session", "-1", DAY], "no number that fits"),
    (&["asrun", "--result", "70000", DAY], "no number that fits"),
    (&["timeline", "--width", "19", DAY], "not 20 to 400"),
    (
        &["check", "--name", "ABCDEFGHIJKLMNOPQRSTUVWXYZ012345", DAY],
        "31 bytes at most",
    ),
    (&["check", DAY, DAY, DAY], "3 files, and two at most"),
    (&["join", DAY], "IN and OUT, or --text"),
    (&["join"], "IN and OUT, or --text"),
    (&["join", "--text", "x", "y"], "a file 'y' too many"),
    (&["pcap", "--pieces", "0", DAY], "not 1 to 1460"),
    (
        &["pcap", "--back", DAY],
        "byte 0: no capture (pcap or pcapng)",
    ),
    (&["pcap", "--back", "no-such-file"], "no-such-file: "),
    (&["pcap", "--back", "x", DAY], "too many"),
    (&["pcap", "--json", DAY], "no option --json"),
    (&["list", "no-such-file"], "no-such-file: "),
    (
        &["asrun", "--sqlite", "x", "--csv", DAY],
        "--sqlite and --json or --csv at once",
    ),
    (&["timeline", "--zone", "UTC", DAY], "--zone is for --html"),
    (
        &["timeline", "--html", "x", "--zone", "<b>", DAY],
        "no name of a zone",
    ),
    (&["join", "--middle", DAY, DAY], "no option --middle"),
    (&["join", "--text", "no-such-file"], "no-such-file: "),
    (
        &["timeline", "--html", "/no/such/folder/x", DAY],
        "/no/such/folder/x: ",
    ),
];

#[test]
fn wrong_uses() {
    for (words, says) in USES {
        wrong(words, b"", says);
    }
}

#[test]
fn unreadable_files() {
    let day = std::fs::read(recording("example-day.rec")).unwrap();
    let garbage: Vec<u8> = (0..200u32).map(|i| (i * 37 + 11) as u8).collect();
    let uses: &[(&[u8], &str)] = &[
        (b"", "standard input: empty: no call in it"),
        (
            &garbage,
            "standard input: byte 0: 0x0B is no mark of a call or a record",
        ),
        (b"hello, desk", "byte 0: 0x68 is no mark"),
        (&[0x45, 7], "no call in it, records only"),
        (&[0x52], "byte 0: the last record is cut, 1 of 10 bytes"),
        (&day[..9], "byte 0: the last record is cut, 9 of 10 bytes"),
    ];
    for command in ["list", "asrun", "timeline", "check"] {
        for (input, says) in uses {
            wrong(&[command], input, says);
        }
    }
    wrong(&["join", "--text", "-"], b"> opne 0", "line 1");
    wrong(&["join", "--text", "-"], &[0xFF, 0xFE], "utf-8");
}

#[test]
fn the_two_files_of_a_card_program() {
    let calls = scratch("uses-in", &[0x4F, 0, 0x4F, 0]);
    let records = scratch("uses-out", &[0x45, 6]);
    let empty = scratch("uses-empty", b"");
    let whole = &recording("example-day.rec");
    assert_eq!(desk(&["check", &calls, &records], b"").status, 0);
    wrong(
        &["list", &records, &calls],
        b"",
        "uses-out: byte 0: a record here: are the two files swapped",
    );
    wrong(
        &["list", &calls, &calls],
        b"",
        "uses-in: byte 0: a call here",
    );
    wrong(
        &["list", whole, &records],
        b"",
        "a record here: are the two files swapped, or is one a recording?",
    );
    wrong(&["list", &empty, &records], b"", "empty: no call in it");
    let missing = desk(&["check", &calls, &empty], b"");
    assert_eq!(missing.status, 1, "the refusal was due");
    wrong(
        &["list", &records],
        b"",
        "no call in it, records only: is it a card program's output?",
    );
}

#[test]
fn a_cut_file_is_read_up_to_its_last_record() {
    let day = std::fs::read(recording("example-day.rec")).unwrap();
    let ran = desk(&["check"], &day[..day.len() - 1]);
    assert_eq!(ran.status, 0);
    let said = format!(
        "desk: standard input: byte {}: the last record is cut, 1 of 2 bytes: dropped\n",
        day.len() - 2
    );
    assert_eq!(ran.said, said);
}

/// One byte that is no mark, in the middle of the day: what stands before it is shown, with the place.
#[test]
fn a_byte_that_is_no_mark() {
    let mut day = std::fs::read(recording("example-day.rec")).unwrap();
    // call 45 begins here (example-day-wrong-end.rec, `check`)
    let at = 1_893;
    let before = desk(&["list", "--raw"], &day[..at]).text();
    assert!(
        before.ends_with("44 calls, every record as the rules give it\n"),
        "{before}"
    );
    day[at] = 0x7A;
    for command in ["list", "asrun", "timeline", "check"] {
        let ran = desk(&[command, "--raw"], &day);
        assert_eq!(ran.status, 2, "{command}");
        let said = "desk: standard input: byte 1893: 0x7A is no mark of a call or a record: shown up to it\n";
        assert_eq!(ran.said, said, "{command}");
        assert!(
            ran.text()
                .contains("44 calls, every record as the rules give it"),
            "{command}"
        );
        if command == "list" {
            assert_eq!(ran.text(), before);
        }
    }
}

#[test]
fn another_channel() {
    let sport = recording("sport.rec");
    for command in ["list", "asrun", "timeline", "check"] {
        let ran = desk(&[command, "--name", "SPORT", &sport], b"");
        assert_eq!((ran.status, &ran.said[..]), (0, ""), "{command}");
        let ran = desk(&[command, &sport], b"");
        assert_eq!(ran.status, 1, "{command}");
        assert!(ran.said.contains("--name SPORT"), "{}", ran.said);
    }
    let page = scratch("sport.html", b"");
    let ran = desk(
        &["timeline", "--name", "SPORT", "--html", &page, &sport],
        b"",
    );
    assert_eq!(ran.status, 0);
    let page = std::fs::read_to_string(page).unwrap();
    assert!(page.contains("<h1>Channel SPORT, 1970-01-01T00:16:40.000000Z</h1>"));
    let capture = desk(&["pcap", "--name", "SPORT", &sport], b"");
    assert_eq!(capture.status, 0);
    let back = desk(&["pcap", "--name", "SPORT", "--back", "-"], &capture.out);
    assert_eq!(back.status, 0);
    assert_eq!(desk(&["check", "--name", "SPORT"], &back.out).status, 0);
}

#[test]
fn help_for_each_command_and_the_man_page() {
    let man = include_str!("../desk.1");
    let all = desk(&["--help"], b"");
    assert_eq!(all.status, 0);
    for command in ["list", "asrun", "timeline", "check", "join", "pcap"] {
        let ran = desk(&[command, "--help"], b"");
        assert_eq!(ran.status, 0);
        let text = ran.text();
        assert!(
            text.starts_with(&format!("usage: desk {command} ")),
            "{text}"
        );
        assert!(all.text().contains(&format!("\n  {command} ")));
        assert!(
            man.contains(&format!("\n.SS {command} ")),
            "{command} in desk.1"
        );
        for option in text.lines().filter_map(|l| l.trim().strip_prefix("--")) {
            let name = option.split_whitespace().next().unwrap();
            assert!(man.contains(&format!("\\-\\-{name}")), "--{name} in desk.1");
        }
    }
    let version = desk(&["--version"], b"");
    assert_eq!(
        version.text(),
        format!("desk {}\n", env!("CARGO_PKG_VERSION"))
    );
    assert!(man.contains(env!("CARGO_PKG_VERSION")));
}

/// A reader that goes away, as `head`, is no failure.
#[test]
fn a_reader_that_goes_away() {
    let line = format!(
        "{} list {} | head -n 1",
        env!("CARGO_BIN_EXE_desk"),
        recording("example-day.rec")
    );
    let ran = std::process::Command::new("sh")
        .args(["-c", &line])
        .output()
        .unwrap();
    assert!(ran.status.success());
    assert!(ran.stderr.is_empty());
}
