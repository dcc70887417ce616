//! The card program.

use crate::people::card::{input_bytes, next_call, run, Call};
use crate::people::record_lines::hex;

fn bytes(text: &str) -> Vec<u8> {
    let parts = text.split_whitespace();
    parts.map(|p| u8::from_str_radix(p, 16).unwrap()).collect()
}

fn out(text: &str) -> String {
    hex(&run(&bytes(text)).output())
}

#[test]
fn whole_case() {
    let input = "4F 00 4D 00 00 05 00 08 FF FF FF FF 00 00 00 00 00 00 00 00 43 00 43 00";
    assert_eq!(out(input), "52 00 00 00 00 00 00 67 FF FF 45 07");
}

#[test]
fn a_refused_message_is_passed_over_whole() {
    let alive = "00 05 00 08 FF FF FF FF 00 00 00 00 00 00 00 00";
    let input = format!("4D 04 {alive} 4D 01 {alive} 4F 01 4F 01");
    assert_eq!(out(&input), "45 01 45 07 45 06");
}

#[test]
fn a_large_message_stops_the_program_with_the_first_refusal() {
    assert_eq!(out("4F 00 4D 00 00 01 0F F9 FF FF FF FF 43 01"), "45 04");
    assert_eq!(out("4D 00 00 01 0F F9 FF FF FF FF 43 01"), "45 07");
    assert_eq!(out("4D 09 00 01 FF FF FF FF FF FF 43 01"), "45 01");
    // The header itself is cut: no call.
    assert_eq!(out("4F 00 4D 00 00 01 0F F9 FF FF FF"), "");
}

#[test]
fn cut_records_and_other_marks_stop_it_silently() {
    let cases = [
        "43",
        "4F",
        "54 00 00 00 00 01 00 00 00",
        "4D 00",
        "4D 00 00 05 00 08 FF FF FF",
        "4D 00 00 05 00 08 FF FF FF FF 00 00 00 00 00 00 00",
        "52 00 43 00",
        "00 43 00",
    ];
    for case in cases {
        assert_eq!(out(&format!("43 03 {case}")), "45 07", "{case}");
    }
}

#[test]
fn the_second_byte_of_a_tick_is_not_read() {
    let input = "54 FF 00 00 00 01 00 0F 42 40 54 07 00 00 00 01 00 0F 42 3F \
                 54 00 00 00 00 01 00 0F 42 3E";
    assert_eq!(out(input), "45 08 45 03");
}

#[test]
fn input_bytes_are_read_back() {
    let calls =
        [Call::Open(3), Call::Close(200), Call::Tick(5, 999_999), Call::Message(1, bytes("00 0E 00 04 FF FF FF FF 00 00 00 07"))];
    for call in calls {
        let record = input_bytes(&call);
        assert_eq!(next_call(&record), Ok((call, record.len())));
    }
}
