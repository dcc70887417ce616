//! Recordings of a whole driver: names, lent sections, cues and a rolling card; and the referee beside
//! the program's own judgement.

mod common;

use common::{desk, desk_by, recording, scratch};

fn whole() -> Vec<u8> {
    std::fs::read(recording("whole.rec")).expect("whole.rec")
}

/// What stands in the list of `examples/whole.c`'s recording, by hand.
#[test]
fn every_mark_is_in_the_list() {
    let ran = desk(&["list", "--raw", &recording("whole.rec")], &[]);
    let lines = ran.lines();
    assert_eq!((ran.status, &ran.said[..]), (0, ""));
    let section = "fc301600010000001000fff00506ff234567890000713b22bd";
    for (place, line) in [
        (0, "0 0.000000 = name ChannelName=SPORT".to_string()),
        (1, "0 0.000000 = section feed=primary Length=3 TS_program_map_section=aabbcc".to_string()),
        (2, "0 0.000000 = section feed=insertion Length=1 TS_program_map_section=dd".to_string()),
        (3, "1 0.000000 > 0 open".to_string()),
        (9, format!("5 1000.000000 > cue PTS=591651064 time=1000.000000 splice_info_section={section} (time_signal pts_time 4886718345)")),
        (17, "8 1003.000000 = section feed=insertion Length=2 TS_program_map_section=eeff".to_string()),
        (22, "10 calls, every record as the rules give it".to_string()),
    ] {
        assert_eq!(lines[place], line);
    }
    assert_eq!(lines.len(), 23);
}

#[test]
fn every_mark_is_in_the_rows_and_on_the_page() {
    let ran = desk(&["list", "--csv", "--raw", &recording("whole.rec")], &[]);
    let lines = ran.lines();
    assert_eq!(lines[1], "0.000000,0,0,no call,,name,,,,ChannelName=SPORT");
    let section = "feed=insertion Length=2 TS_program_map_section=eeff";
    let row = format!("1003.000000,8,470,no call,,section,,,,{section}");
    assert!(lines.contains(&row), "{lines:?}");
    // a call behind a section has its place in the file
    assert!(lines.contains(&"1003.000000,9,476,call,0,GetConfig_Request,,,,".to_string()));
    let page = scratch("whole.html", &[]);
    let ran = desk(&["timeline", "--html", &page, &recording("whole.rec")], &[]);
    assert_eq!(ran.status, 0);
    let html = std::fs::read_to_string(&page).expect("the page");
    assert_eq!(html.matches("class=\"mark lent\" style").count(), 4);
    assert_eq!(html.matches("class=\"mark cue\" style").count(), 1);
    assert!(html.contains("<h1>Channel SPORT, "));
}

/// A section before the records of a call, a wrong map, and a cue that no mark tells of.
#[test]
fn breaks_of_further_marks() {
    let good = whole();
    let check = |bytes: &[u8], status: i32, says: &str| {
        let ran = desk(&["check", "--raw"], bytes);
        assert_eq!(ran.status, status, "{}", ran.text());
        assert!(ran.text().contains(says), "{says}: {}", ran.text());
    };
    check(&good, 0, "10 calls, every record as the rules give it");
    // GetConfig_Response of 45 bytes at 425, and the section of 6 at 470
    let late = [&good[..425], &good[470..476], &good[425..470], &good[476..]].concat();
    check(&late, 1, "first call 8 (byte 415)");
    check(
        &late,
        1,
        "! FOUND, NOT DUE: section feed=insertion Length=2",
    );
    let mut other = good.clone();
    other[469] ^= 1;
    check(&other, 1, "first call 8 (byte 415)");
    let unmarked = [&good[..237], &good[282..]].concat();
    check(&unmarked, 1, "first call 4 (byte 180)");
    // a name that is not first, and a section that is neither
    let ran = desk(&["check"], &[&good[34..46], &good[..34]].concat());
    assert_eq!(ran.status, 2);
    assert!(
        ran.said.contains("byte 12: 0x4E is no mark"),
        "{}",
        ran.said
    );
    let ran = desk(&["list"], &[0x4F, 0, 0x4C, 2]);
    assert_eq!(ran.status, 2);
    assert!(ran.said.contains("byte 2: 0x4C is no mark"), "{}", ran.said);
}

/// The instant at 1,000 s and reading 2^32 - 1; 90,000 ticks later it is 1,001 s.
#[test]
fn a_rolling_cards_clock() {
    let rolling = [
        &[0x57, 0, 0, 0, 0, 7, 0x45, 12][..],
        &[0x49, 0, 0, 0, 3, 0xE8, 0, 0, 0, 0, 0xFF, 0xFF, 0xFF, 0xFF],
        &[0x57, 0, 0, 1, 0x5F, 0x8F, 0x4F, 0],
    ]
    .concat();
    let ran = desk(&["list", "--raw"], &rolling);
    let lines = [
        "1 0.000000 > reading reading=7",
        "1 0.000000 < refused 12 (no reading of this counter)",
        "2 1000.000000 > instant time=1000.000000 reading=0xFFFFFFFF",
        "3 1001.000000 > reading reading=89999",
        "4 1001.000000 > 0 open",
        "4 calls, every record as the rules give it",
    ];
    let found = ran.lines();
    for (found, line) in found.iter().zip(lines) {
        // the words of 12 are the header's
        let same = found.split(" (").next() == line.split(" (").next();
        assert!(same, "{found}: {line}");
    }
    assert_eq!((found.len(), ran.status), (lines.len(), 0));
    let ran = desk(&["list"], &[&rolling[..], &[0x54, 0]].concat());
    assert!(
        ran.said.contains("byte 30: 0x54 is no mark"),
        "{}",
        ran.said
    );
}

/// A stand-in that reads all and says this.
fn stand_in(name: &str, says: &str) -> String {
    let path = scratch(
        name,
        format!("#!/bin/sh\ncat >/dev/null\necho '{says}'\n").as_bytes(),
    );
    let mode = std::os::unix::fs::PermissionsExt::from_mode(0o755);
    std::fs::set_permissions(&path, mode).expect("a program");
    path
}

#[test]
fn the_referee_is_asked_and_named() {
    let (none, fourth) = (
        stand_in("says-none", "none"),
        stand_in("says-call-4", "call 4"),
    );
    let (stops, odd) = (
        stand_in("says-14", "refused 14 at 0"),
        stand_in("says-odd", "what"),
    );
    let wrong = {
        let mut wrong = whole();
        wrong[236] ^= 1;
        wrong
    };
    for (referee, bytes, status, says) in [
        (&none, &whole(), 0, "the proved referee says the same: none"),
        (
            &fourth,
            &wrong,
            1,
            "the proved referee says the same: call 4 first",
        ),
        (&fourth, &whole(), 1, "BUT THE PROVED REFEREE SAYS call 4"),
        (&none, &wrong, 1, "BUT THE PROVED REFEREE SAYS none"),
        (
            &stops,
            &whole(),
            0,
            "the proved referee knows no mark as that of byte 0",
        ),
        (&odd, &whole(), 0, "the referee was not asked: "),
    ] {
        let ran = desk_by(referee, &["check"], bytes);
        assert_eq!(ran.status, status, "{says}");
        assert!(
            ran.lines()
                .last()
                .is_some_and(|line| line.starts_with(says)),
            "{says}: {}",
            ran.text()
        );
        let ran = desk_by(referee, &["check", "--json"], bytes);
        assert!(
            ran.said.contains(says) && ran.status == status,
            "{says}: {}",
            ran.said
        );
    }
}

/// Without one, and for a list, nothing is said of it.
#[test]
fn without_a_referee_nothing_is_said_of_it() {
    let none = stand_in("says-none-too", "none");
    assert!(!desk(&["check"], &whole()).text().contains("referee"));
    let list = desk_by(&none, &["list"], &whole());
    assert!(!list.text().contains("referee"));
}

/// The name is handed on, as the program's own is CH1: one that knows no names says so at byte 0.
#[test]
fn a_name_is_handed_on() {
    let stops = stand_in("says-14-again", "refused 14 at 0");
    let ran = desk_by(
        &stops,
        &["check", "--name", "SPORT", &recording("sport.rec")],
        &[],
    );
    let last = ran.lines().pop().unwrap_or_default();
    assert_eq!(
        last,
        "the referee was not asked: it knows no mark of a name"
    );
}
