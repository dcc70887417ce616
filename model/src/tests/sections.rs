//! Sections made and taken apart, by the worked ones of docs/SCTE35.md and SCTE 35's own examples.

use crate::people::cue_call::crc;
use crate::people::section_bytes::*;
use crate::people::shown::*;

fn bytes(text: &str) -> Vec<u8> {
    let parts = text.split_whitespace();
    parts.map(|p| u8::from_str_radix(p, 16).unwrap()).collect()
}

/// The page's two worked sections.
pub const FIRST: &str = "FC 30 20 00 00 00 00 00 00 00 FF F0 0F 05 00 02 8C E8 7F CF FE D5 89 23 BF \
                         55 66 00 00 00 00 1D 80 D8 5D";
pub const SECOND: &str = "FC 30 16 00 01 00 00 00 10 00 FF F0 05 06 FF 23 45 67 89 00 00 71 3B 22 BD";

#[test]
fn the_pages_sections_are_made() {
    let mut insert = Insert::new(0x0002_8CE8);
    insert.time = Some(0xD589_23BF);
    insert.program = 0x5566;
    let first = Section::new(Command::Insert(insert));
    assert_eq!(first.bytes(), bytes(FIRST));
    let mut second = Section::new(Command::TimeSignal(Some(0x1_2345_6789)));
    second.adjustment = 0x1_0000_0010;
    assert_eq!(second.bytes(), bytes(SECOND));
}

#[test]
fn the_pages_sections_are_read() {
    let shown = Shown::of(&bytes(FIRST));
    let values = [
        ("table_id", "252"),
        ("section_length", "32"),
        ("splice_command_length", "15"),
        ("splice_event_id", "167144"),
        ("splice_event_cancel_indicator", "0"),
        ("out_of_network_indicator", "1"),
        ("program_splice_flag", "1"),
        ("duration_flag", "0"),
        ("splice_immediate_flag", "0"),
        ("time_specified_flag", "1"),
        ("pts_time", "3582534591"),
        ("unique_program_id", "21862"),
        ("descriptor_loop_length", "0"),
        ("CRC_32", "494983261"),
        ("duration", ""),
    ];
    for (name, value) in values {
        assert_eq!(shown.plain(name), value, "{name}");
    }
    let shown = Shown::of(&bytes(SECOND));
    assert_eq!(shown.number("pts_adjustment"), Some(0x1_0000_0010));
    assert_eq!(shown.number("pts_time"), Some(0x1_2345_6789));
}

#[test]
fn in_words() {
    let words = |text: &str| summary(&bytes(text));
    let first = "splice_insert 167144 out pts_time 3582534591";
    assert_eq!(words(FIRST).as_deref(), Some(first));
    let second = "time_signal pts_time 4886718345";
    assert_eq!(words(SECOND).as_deref(), Some(second));
    assert_eq!(words(&FIRST.replace("5D", "5C")), None);
    assert_eq!(words("FC 30 00"), None);
    let null = Section::new(Command::Null).bytes();
    assert_eq!(summary(&null).as_deref(), Some("splice_null"));
}

#[test]
fn the_table_of_sizes() {
    let sizes = [(true, None, [10, 15]), (false, None, [11, 16]), (false, Some(1 << 32), [15, 20])];
    for (immediate, time, [plain, with]) in sizes {
        let mut insert = Insert::new(1);
        insert.immediate = immediate;
        insert.time = time;
        assert_eq!(insert.bytes().len(), plain);
        insert.duration = Some((true, 90_000));
        assert_eq!(insert.bytes().len(), with);
        insert.cancelled = true;
        assert_eq!(insert.bytes().len(), 5);
    }
}

#[test]
fn whatever_is_cut_is_shown_as_far_as_it_goes() {
    let whole = bytes(FIRST);
    for end in 0..whole.len() {
        let shown = Shown::of(&remade(whole[..end].to_vec()));
        assert_eq!(shown.has("CRC_32"), end >= 18, "{end}");
    }
}
/// SCTE 35's example of a time_signal with the start of a provider's placement opportunity.
#[test]
fn a_segmentation_descriptor_in_words() {
    let section = bytes(
        "FC 30 34 00 00 00 00 00 00 FF FF F0 05 06 FE 72 BD 00 50 00 1E 02 1C 43 55 45 49 48 00 00 8E 7F CF 00 01 A5 99 B0 08 08 \
         00 00 00 00 2C A0 A1 8A 34 02 00 9A C9 D1 7E",
    );
    assert_eq!(crc(&section), 0);
    let shown = Shown::of(&section);
    let of = |name: &str| shown.number(name);
    assert_eq!(of("segmentation_event_id"), Some(0x4800_008E));
    assert_eq!((of("segmentation_event_cancel_indicator"), of("program_segmentation_flag")), (Some(0), Some(1)));
    // not restricted: no_regional_blackout_flag and archive_allowed_flag 1, device_restrictions 3, no web delivery
    assert_eq!((of("delivery_not_restricted_flag"), of("web_delivery_allowed_flag")), (Some(0), Some(0)));
    assert_eq!(
        (of("no_regional_blackout_flag"), of("archive_allowed_flag"), of("device_restrictions")),
        (Some(1), Some(1), Some(3))
    );
    assert_eq!(of("segmentation_duration"), Some(27_630_000));
    assert_eq!((of("segmentation_upid_type"), of("segmentation_upid_length")), (Some(8), Some(8)));
    assert_eq!((of("segmentation_type_id"), of("segment_num"), of("segments_expected")), (Some(0x34), Some(2), Some(0)));
    assert!(!shown.has("sub_segment_num") && !shown.has("descriptor_bytes"));
    let meant: Vec<String> = (0..shown.fields.len()).filter_map(|place| shown.meant(place)).collect();
    // 27,630,000 ticks are 307 s
    assert_eq!(meant, ["307.000000 s", "AiringID", "Provider Placement Opportunity Start"]);
}

/// One that does not fit its length is shown as bytes, every cut of it too.
#[test]
fn a_segmentation_descriptor_that_does_not_fit() {
    let whole = bytes("43 55 45 49 48 00 00 8E 7F 9F 03 03 41 42 43 10 01 01");
    let of = |descriptor: &[u8]| {
        let mut section = Section::new(Command::Null);
        section.descriptors = [&[2, descriptor.len() as u8], descriptor].concat();
        Shown::of(&section.bytes())
    };
    let good = of(&whole);
    assert_eq!(good.number("segmentation_type_id"), Some(0x10));
    assert_eq!(good.plain("segmentation_upid"), "414243");
    let place = good.fields.iter().position(|(name, _)| *name == "segmentation_upid").unwrap();
    assert_eq!(good.meant(place).as_deref(), Some("\"ABC\""));
    for end in 4..whole.len() {
        let cut = of(&whole[..end]);
        assert!(!cut.has("segmentation_type_id") && !cut.has("segmentation_event_id"), "{end}");
        assert_eq!(cut.has("descriptor_bytes"), end > 4, "{end}");
    }
    // cancelled, it ends behind its cancel byte
    let cancelled = of(&bytes("43 55 45 49 48 00 00 8E FF"));
    assert_eq!(cancelled.number("segmentation_event_cancel_indicator"), Some(1));
    assert!(!cancelled.has("segmentation_type_id"));
}
