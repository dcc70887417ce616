//! Records by hand from 01's list.

use crate::people::record_lines::{hex, items, Item, Line, Record, What};

#[test]
fn a_completed_splice_has_01s_layout() {
    let record = Record { conn: 2, what: What::Complete { result: 125, id: 7, flag: 1, bitrate: 0, played: 900_000 } };
    let expected = "52 02 00 09 00 0D 00 7D FF FF 00 00 00 07 01 00 00 00 00 00 0D BB A0";
    assert_eq!(hex(&record.bytes()), expected);
    assert_eq!(items(&record.bytes()), vec![Item::Record(record)]);
}

#[test]
fn a_cue_request_has_no_result() {
    let record = Record { conn: 3, what: What::Cue { seconds: 0x3E9, micros: 0x1_B212, section: vec![0xFC, 0x30, 0x00] } };
    let expected = "52 03 00 0C 00 0B FF FF FF FF 00 00 03 E9 00 01 B2 12 FC 30 00";
    assert_eq!(hex(&record.bytes()), expected);
    let line = "3 Cue_Request time=1001.111122 section=FC3000";
    assert_eq!(record.line(), line);
    assert_eq!(items(&record.bytes()), vec![Item::Record(record.clone())]);
    let mut other = record.bytes();
    other[6..8].copy_from_slice(&[0, 100]);
    assert_eq!(items(&other), vec![Item::Strange(other.clone())]);
    let none = Record { conn: 0, what: What::Cue { seconds: 0xFFFF_FFFF, micros: 0xFFFF_FFFF, section: Vec::new() } };
    assert_eq!(none.line(), "0 Cue_Request time=none section=");
    let cut = [0x52, 0, 0, 0x0C, 0, 7, 255, 255, 255, 255, 0, 0, 0, 0, 0, 0, 0];
    assert_eq!(items(&cut), vec![Item::Strange(cut.to_vec())]);
}

#[test]
fn a_wrong_result_extension_is_strange() {
    let mut bytes = Record { conn: 0, what: What::General { result: 103 } }.bytes();
    bytes[9] = 0;
    assert_eq!(items(&bytes), vec![Item::Strange(bytes.clone())]);
}

#[test]
fn a_cut_record_behind_a_refusal_is_strange() {
    let found = items(&[0x45, 7, 0x52, 0, 0]);
    assert_eq!(found, vec![Item::Refused(7), Item::Strange(vec![0x52, 0, 0])]);
}
