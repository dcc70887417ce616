//! The incident of the minutes: an end under the next request's SessionID. The lists show it, and go
//! on behind it.

mod common;

use common::{desk, recording, scratch};

#[test]
fn the_recording_is_that_of_its_text() {
    for (name, text, status) in [
        ("incident.rec", recording("incident.txt"), 1),
        (
            "example-day.rec",
            recording("../../model/scenarios/example-day.txt"),
            0,
        ),
    ] {
        let made = desk(&["join", "--text", &text], b"");
        assert_eq!(made.status, status, "{name}");
        let kept = std::fs::read(recording(name)).unwrap();
        assert!(made.out == kept, "desk join --text {text} > {name}");
    }
}

/// The example day, with the end of the spot whose server was lost under a SessionID of the other server.
#[test]
fn the_example_day_with_a_wrong_end_is_named_by_its_call() {
    let day = std::fs::read_to_string(recording("../../model/scenarios/example-day.txt")).unwrap();
    let own = "< 0 SpliceComplete_Response 116 id=501 flag=1";
    assert_eq!(day.matches(own).count(), 1);
    let text = scratch(
        "wrong-end.txt",
        day.replace(own, &own.replace("501", "9002")).as_bytes(),
    );
    let made = desk(&["join", "--text", &text], b"");
    let path = recording("example-day-wrong-end.rec");
    let kept = std::fs::read(&path).unwrap();
    assert!(made.out == kept, "desk join --text on the changed day");
    let found = model::check::check(&kept);
    assert_eq!(found, model::check::Finding::Call(45));
    let ran = desk(&["check", "--raw", &path], b"");
    assert_eq!(ran.status, 1);
    let verdict = "87 calls, 1 call breaks the rules, first call 45 (byte 1893)\n";
    assert!(ran.text().ends_with(verdict), "{}", ran.text());
}

#[test]
fn the_false_end_is_listed_and_marked_where_it_stands() {
    let ran = desk(&["list", "--raw", &recording("incident.rec")], b"");
    assert_eq!(ran.status, 1);
    let lines = ran.lines();
    let place = |text: &str| {
        let found = lines.iter().position(|l| l.contains(text));
        found.unwrap_or_else(|| panic!("{text}\n{}", ran.text()))
    };
    let lost = place("9 1700000020.000000 ! DUE, MISSING: 0 SpliceComplete_Response 116 (Insertion Aborted) SessionID=1");
    let found = "13 1700000070.000000 ! FOUND, NOT DUE: 1 SpliceComplete_Response 100 (Successful Response) \
                 SessionID=55 SpliceTypeFlag=1 Bitrate=0 PlayedDuration=5400000";
    let false_end = place(found);
    let start = place("14 1700000100.000000 ! DUE, MISSING: 1 SpliceComplete_Response 100");
    let after = place(
        "18 1700000180.000000 < 1 SpliceComplete_Response 100 (Successful Response) SessionID=56",
    );
    assert!(lost < false_end && false_end < start && start < after);
    assert!(ran
        .text()
        .ends_with("5 calls break the rules, first call 9 (byte 374)\n"));
}

#[test]
fn due_and_found_stand_side_by_side() {
    let ran = desk(&["check", "--raw", &recording("incident.rec")], b"");
    let lines = ran.lines();
    let due = lines.iter().position(|l| l.contains("State=1")).unwrap();
    assert!(lines[due].contains("DUE, MISSING: 1 Alive_Response 100"));
    assert!(lines[due + 1].contains("FOUND, NOT DUE: 1 Alive_Response 100"));
    assert!(lines[due + 1].contains("State=2 (insertion) SessionID=1"));
    assert!(!ran.text().contains(" < "), "nothing but the breaks");
}

#[test]
fn the_as_run_list_says_what_never_aired() {
    let ran = desk(&["asrun", "--raw", &recording("incident.rec")], b"");
    assert_eq!(ran.status, 1);
    let lines = ran.lines();
    let expected = [
        "0 1 4001 1 1700000010.000000 60.000000 1700000010.000000 - 60.000000 5400000 NO END RECORDED",
        "! BY THE RULES: its connection was lost while on air; 1700000010.000000 to 1700000020.000000, 10.000000 s on air",
        "1 55 4002 1 1700000100.000000 30.000000 - 1700000070.000000 - 5400000 AN END WITHOUT A START; PlayedDuration 5400000, on air 0",
        "! BY THE RULES: played to its end; 1700000100.000000 to 1700000130.000000, 30.000000 s on air",
        "1 56 4002 1 1700000150.000000 30.000000 1700000150.000000 1700000180.000000 30.000000 2700000 played to its end",
        "together 200.000000 s 18000000 ticks",
        "the clock went on by 200.000000 s 18000000 ticks",
    ];
    for line in expected {
        assert!(lines.contains(&line.to_string()), "{line}\n{}", ran.text());
    }
}

#[test]
fn the_page_shows_it_in_red() {
    let path = scratch("incident.html", b"");
    let ran = desk(
        &["timeline", "--html", &path, &recording("incident.rec")],
        b"",
    );
    assert_eq!(ran.status, 1);
    let page = std::fs::read_to_string(path).unwrap();
    let count = |text: &str| page.matches(text).count();
    assert_eq!(count("<i class=\"break\" style"), 5);
    assert_eq!(
        count("class=\"bar ruled\" style=\"left"),
        2,
        "1 until its close, 55 as due"
    );
    assert_eq!(count(" bad\" style=\""), 2);
    assert!(page.contains("data-session=\"55\" data-event=\"4002\" data-result=\"100\""));
    assert!(page.contains("AN END WITHOUT A START"));
    assert!(
        page.contains("found: 1 SpliceComplete_Response 100 (Successful Response) SessionID=55")
    );
    assert_eq!(count("http"), 0, "it needs nothing else");
}

/// The same as the card program's two files: there no call says where its records end.
#[test]
fn as_two_files() {
    let bytes = std::fs::read(recording("incident.txt")).unwrap();
    let steps = model::scenario::parse(std::str::from_utf8(&bytes).unwrap()).unwrap();
    let input: Vec<u8> = steps.iter().flat_map(|s| s.input.clone()).collect();
    let output: Vec<u8> = steps.iter().flat_map(|s| s.expected.clone()).collect();
    let (input, output) = (scratch("in", &input), scratch("out", &output));
    let ran = desk(&["check", "--json", &input, &output], b"");
    assert_eq!(ran.status, 1);
    let text = ran.text();
    assert_eq!(text.matches("\"kind\": \"found and not due\"").count(), 2);
    assert_eq!(text.matches("\"kind\": \"due and missing\"").count(), 4);
    let joined = desk(&["join", &input, &output], b"");
    assert_eq!(joined.status, 1);
    let again = desk(&["check", "--json", "-"], &joined.out);
    assert_eq!(again.text().matches("not due").count(), 2);
}
