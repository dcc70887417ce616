//! The scenario format.

use crate::hold::run_scenarios::{difference, read_difference, run_cued, run_rolling};
use crate::people::card;
use crate::people::record_lines::hex;
use crate::people::rolling;
use crate::people::scenario::*;

fn bytes_of(line: &str) -> String {
    hex(&call_bytes(line).unwrap())
}

#[test]
fn calls_become_bytes() {
    assert_eq!(bytes_of("open 3"), "4F 03");
    assert_eq!(bytes_of("close 0x10"), "43 10");
    assert_eq!(bytes_of("tick 1.000005"), "54 00 00 00 00 01 00 00 00 05");
    assert_eq!(bytes_of("tick 1:1000000"), "54 00 00 00 00 01 00 0F 42 40");
    assert_eq!(bytes_of("abort 2 id=0x01020304"), "4D 02 00 0E 00 04 FF FF FF FF 01 02 03 04");
    assert_eq!(bytes_of("config 2"), "4D 02 00 0A 00 00 FF FF FF FF");
    assert_eq!(bytes_of("extended 2 id=7"), "4D 02 00 03 00 08 FF FF FF FF 00 00 00 07 FF FF FF FF");
    assert_eq!(bytes_of("extended 2 id=7 type=0x80000000"), "4D 02 00 03 00 08 FF FF FF FF 00 00 00 07 80 00 00 00");
    assert_eq!(bytes_of("alive 0 time=2.000001"), "4D 00 00 05 00 08 FF FF FF FF 00 00 00 02 00 00 00 01");
    assert_eq!(bytes_of("message 1 00 0D 0000 FFFFFFFF"), "4D 01 00 0D 00 00 FF FF FF FF");
    assert_eq!(bytes_of("raw 4F"), "4F");
}

#[test]
fn splice_words_and_defaults() {
    assert_eq!(
        bytes_of("splice 0 id=7 at=1003.000002 duration=2700000 access=3 override=1"),
        "4D 00 00 07 00 21 FF FF FF FF 00 00 00 07 FF FF FF FF 00 00 03 EB 00 00 00 02 \
         00 01 00 29 32 E0 FF FF FF FF 00 00 00 00 03 01 01"
    );
    assert_eq!(
        bytes_of("splice 1 id=8 prior=7 duration=1 return=0 service=0xFFFF event=1 postblack=2 desc=0104AABBCCDD"),
        "4D 01 00 07 00 27 FF FF FF FF 00 00 00 08 00 00 00 07 00 00 00 00 00 00 00 00 \
         FF FF 00 00 00 01 00 00 00 01 00 00 00 02 00 00 00 01 04 AA BB CC DD"
    );
    assert_eq!(
        bytes_of(
            "splice 1 id=8 prior=7 duration=1 return=0 pcr=0x31 stream=0x32:27:4000000:6000000:0xFFFFFFFF:1920:1080:0501AA \
             stream=0x1FFF:129:1:2:3:0xFFFF:0xFFFF"
        ),
        "4D 01 00 07 00 54 FF FF FF FF 00 00 00 08 00 00 00 07 00 00 00 00 00 00 00 00 \
         FF FF 00 31 00 00 00 02 \
         18 00 32 00 1B 00 3D 09 00 00 5B 8D 80 FF FF FF FF 07 80 04 38 05 01 AA \
         15 1F FF 00 81 00 00 00 01 00 00 00 02 00 00 00 03 FF FF FF FF \
         00 00 00 01 FF FF FF FF 00 00 00 00 00 00 00"
    );
    let none = call_bytes("splice 0 id=1 at=5 duration=1 pcr=0 pids=17").unwrap();
    assert_eq!(hex(&none[26..34]), "FF FF 00 00 00 00 00 11");
    let both = call_bytes("splice 1 id=8 prior=7 at=1:1000000 duration=1").unwrap();
    assert_eq!(hex(&both[14..26]), "00 00 00 07 00 00 00 01 00 0F 42 40");
}

#[test]
fn init_words_and_defaults() {
    let plain = call_bytes("init 2").unwrap();
    assert_eq!(hex(&plain[..10]), "4D 02 00 01 00 4C FF FF FF FF");
    assert_eq!(hex(&plain[10..16]), "00 02 43 48 31 00");
    assert_eq!(&plain[44..52], b"SPLICER\0");
    assert_eq!(hex(&plain[76..]), "00 08 00 01 00 01 00 01 00 00");
    let junk = call_bytes("init 2 name=\"CH1\" junk=4142 extra= revision=3").unwrap();
    assert_eq!(hex(&junk[..20]), "4D 02 00 01 00 42 FF FF FF FF 00 03 43 48 31 00 41 42 00 00");
    let empty = call_bytes("init 2 name=\"\" splicer=\"A B\"").unwrap();
    assert_eq!(empty[12..44], [0; 32]);
    assert_eq!(&empty[44..48], b"A B\0");
}

#[test]
fn wrong_lines_are_told() {
    for line in [
        "open",
        "open 256",
        "open 1 2",
        "tick 1.5",
        "splice 0 id=1 duration=1",
        "splice 0 id=1 at=5",
        "splice 0 id=1 at=5 duration=1 colour=3",
        "splice 0 id=1 at=5 duration=1 stream=1:2:3:4:5:6:7",
        "splice 0 id=1 at=5 duration=1 pids=1",
        "splice 0 id=1 at=5 duration=1 pcr=1 stream=1:2:3:4:5:6",
        "splice 0 id=1 at=5 duration=1 pcr=1 stream=0x2000:2:3:4:5:6:7",
        "splice 0 id=1 at=5 duration=1 pcr=1 pcr=2",
        "abort 0",
        "extended 0",
        "config",
        "config 0 id=1",
        "jump 0",
        "raw 4",
        "message 0 0G",
        "init 0 name=\"A",
    ] {
        assert!(call_bytes(line).is_err(), "{line}");
    }
    assert!(parse("< refused 1").is_err());
    assert!(parse("> mux 5\n< refused 1").is_err());
    assert!(parse("> mux 256").is_err());
    assert!(parse("> mux").is_err());
    assert!(parse("> map").is_err());
    assert!(parse("> map both").is_err());
    assert!(parse("> map primary\n< refused 1").is_err());
    for line in ["air", "air 1:2", "due", "due 1 2.000000 3", "due 1 2.5", "sessions 1", "sessions on:0:1:2:3:4:5:6:7:8:9"] {
        assert!(parse(&format!("> {line}")).is_err(), "{line}");
    }
    assert!(parse("open 1").is_err());
}

#[test]
fn expected_lines_become_bytes() {
    let cases = [
        ("refused 7", "45 07"),
        ("bytes 01 02FF", "01 02 FF"),
        ("2 General_Response 103", "52 02 00 00 00 00 00 67 FF FF"),
        (
            "0 Alive_Response 100 state=1 id=0xFFFFFFFF time=3.000004",
            "52 00 00 06 00 10 00 64 FF FF 00 00 00 01 FF FF FF FF 00 00 00 03 00 00 00 04",
        ),
        ("1 Splice_Response 109 id=5", "52 01 00 08 00 04 00 6D FF FF 00 00 00 05"),
        ("1 Abort_Response 121 id=5", "52 01 00 0F 00 04 00 79 FF FF 00 00 00 05"),
        (
            "1 GetConfig_Response 100 name=A hardware=0001FF map=02B0",
            "52 01 00 0B 00 25 00 64 FF FF 41 00 00 00 00 00 00 00 00 00 00 00 00 00 00 00 00 00 \
             00 00 00 00 00 00 00 00 00 00 00 00 00 00 00 01 FF 02 B0",
        ),
        ("1 ExtendedData_Response 121 id=5", "52 01 00 04 00 04 00 79 FF FF 00 00 00 05"),
        (
            "1 ExtendedData_Response 100 id=5 event=4001 result=116 played=900000",
            "52 01 00 04 00 14 00 64 FF FF 00 00 00 05 01 0E 43 41 52 44 00 00 0F A1 00 74 \
             00 0D BB A0",
        ),
        (
            "3 SpliceComplete_Response 116 id=5 flag=1 played=900000",
            "52 03 00 09 00 0D 00 74 FF FF 00 00 00 05 01 00 00 00 00 00 0D BB A0",
        ),
    ];
    for (line, expected) in cases {
        assert_eq!(hex(&expected_bytes(line).unwrap()), expected, "{line}");
    }
    let init = expected_bytes("0 Init_Response 104").unwrap();
    assert_eq!(hex(&init[..16]), "52 00 00 02 00 22 00 68 FF FF 00 02 43 48 31 00");
    assert_eq!(init.len(), 44);
}

#[test]
fn words_of_a_rolling_card() {
    let call = |line: &str| rolling_call(line).unwrap();
    let instant = rolling::Call::Instant { seconds: 5, micros: 7, reading: 0xFFFF_FFFF };
    assert_eq!(call("instant 5.000007 reading=0xFFFFFFFF"), Some(instant));
    assert_eq!(call("reading 12"), Some(rolling::Call::Reading(12)));
    assert_eq!(call("tick 5"), None);
    for line in ["instant 5", "instant 5 reading=1 x=2", "reading 1 2", "reading x"] {
        assert!(rolling_call(line).is_err(), "{line}");
    }
    let mixed = parse("> reading 1\n> tick 5\n").unwrap();
    assert!(is_rolling(&mixed));
    assert!(rolling_calls(&mixed).is_err());
    let wrong = parse("> reading 1\n< refused 3\n").unwrap();
    let text = run_rolling(&wrong).unwrap_err();
    assert!(text.contains("got       refused 12"), "{text}");
}

#[test]
fn words_of_a_cue() {
    let given = cue_call("cue FC30 16 pts=0x200000000 at=5.000007").unwrap().unwrap();
    assert_eq!(given.section, [0xFC, 0x30, 0x16]);
    assert_eq!((given.pts, given.seconds, given.micros), (1 << 33, 5, 7));
    let empty = cue_call("cue pts=0 at=1:1000000").unwrap().unwrap();
    assert_eq!((empty.section.len(), empty.micros), (0, 1_000_000));
    assert_eq!(cue_call("tick 5"), Ok(None));
    for line in ["cue FC pts=1", "cue FC at=1", "cue F pts=1 at=1", "cue FC pts=1 at=1 x=2"] {
        assert!(cue_call(line).is_err(), "{line}");
    }
    let cases = [
        ("2 Cue_Request time=none section=FC30", "52 02 00 0C 00 0A FF FF FF FF FF FF FF FF FF FF FF FF FC 30"),
        ("0 Cue_Request time=1.000002 section=FC", "52 00 00 0C 00 09 FF FF FF FF 00 00 00 01 00 00 00 02 FC"),
    ];
    for (line, expected) in cases {
        assert_eq!(hex(&expected_bytes(line).unwrap()), expected, "{line}");
    }
    assert!(expected_bytes("0 Cue_Request 100 time=1 section=FC").is_err());
    let steps = parse("> cue 00 pts=0 at=0\n< refused 11\n> mux 5\n").unwrap();
    assert!(is_cued(&steps) && !is_rolling(&steps));
    assert_eq!(run_cued(&steps), Ok(1));
    let wrong = parse("> cue 00 pts=0 at=0\n").unwrap();
    assert!(run_cued(&wrong).unwrap_err().contains("got       refused 11"));
}

#[test]
fn a_value_is_read_after_the_calls_so_far() {
    let text = "> mux 5\n> open 0\n> init 0\n> mux 5\n> splice 0 id=1 at=9 duration=1 \
                desc=02055341504907\n> mux 5\n> tick 9\n> mux 7\n> tick 10\n> mux 5\n";
    let steps = parse(text).unwrap();
    let run = card::run(&input_of(&steps));
    assert_eq!(read_difference(&steps, &run), None);
    for line in [1, 4, 6, 8, 10] {
        let mut other = parse(text).unwrap();
        let step = other.iter_mut().find(|step| step.line == line).unwrap();
        step.read = Some("mux 9".to_string());
        let told = read_difference(&other, &run).unwrap();
        assert!(told.contains(&format!("line {line}: > mux")), "{told}");
    }
}

#[test]
fn a_map_is_given_after_the_calls_so_far() {
    let text = "> map primary\n> open 0\n> init 0\n> splice 0 id=1 at=9 duration=90000\n\
                > map primary\n> tick 9\n> map insertion\n> tick 10\n> map primary\n";
    let steps = parse(text).unwrap();
    let run = card::run(&input_of(&steps));
    assert_eq!(read_difference(&steps, &run), None);
    for line in [1, 5, 7, 9] {
        let mut other = parse(text).unwrap();
        let step = other.iter_mut().find(|step| step.line == line).unwrap();
        let flipped = |read: String| ["map primary", "map insertion"][usize::from(read == "map primary")].to_string();
        step.read = step.read.take().map(flipped);
        let told = read_difference(&other, &run).unwrap();
        assert!(told.contains(&format!("line {line}: > map")), "{told}");
    }
}

#[test]
fn a_page_is_read_after_the_calls_so_far() {
    let text = "> rows\n> open 0\n> init 0\n> splice 0 id=1 at=9 duration=90000 event=7\n\
                > rows\n> tick 10\n> rows 0:1:7:100:90000\n> extended 0 id=1\n";
    let steps = parse(text).unwrap();
    let run = card::run(&input_of(&steps));
    assert_eq!(read_difference(&steps, &run), None);
    for line in [1, 5, 7] {
        let mut other = parse(text).unwrap();
        let step = other.iter_mut().find(|step| step.line == line).unwrap();
        step.read = Some("rows 0:0:0:0:0".to_string());
        let told = read_difference(&other, &run).unwrap();
        assert!(told.contains(&format!("line {line}: > rows")), "{told}");
    }
    let mut other = parse(text).unwrap();
    other.iter_mut().find(|s| s.line == 7).unwrap().read = Some("rows".to_string());
    let told = read_difference(&other, &run).unwrap();
    assert!(told.ends_with("reads rows 0:1:7:100:90000\n"), "{told}");
    assert!(parse("> rows 0:1:7:100").is_err());
    assert!(parse("> rows\n< refused 1").is_err());
    assert!(parse(&format!("> rows{}", " 0:0:0:0:0".repeat(17))).is_err());
}

#[test]
fn the_first_difference_is_told() {
    let steps = parse("> open 0\n> open 0\n< refused 6\n> close 1\n< refused 7\n").unwrap();
    let good = [0x45, 6, 0x45, 7];
    assert_eq!(difference(&steps, "x", &good), None);
    let wrong = difference(&steps, "x", &[0x45, 6, 0x45, 1]).unwrap();
    assert!(wrong.contains("line 4: > close 1"), "{wrong}");
    assert!(wrong.contains("expected  refused 7"), "{wrong}");
    assert!(wrong.contains("got       refused 1"), "{wrong}");
    let short = difference(&steps, "x", &good[..2]).unwrap();
    assert!(short.contains("got       nothing"), "{short}");
    let long = difference(&steps, "x", &[0x45, 6, 0x45, 7, 0x45, 1]).unwrap();
    assert!(long.contains("after the last call"), "{long}");
}
