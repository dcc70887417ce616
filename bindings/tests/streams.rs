//! Lists of streams through the archive, with bytes by hand from J.280, Table 8-6.

use splicer::{Stream, Streams, KEPT};

/// PcrPID 0x0100, two structures: video with unknown rates, and audio that keeps 3 bytes.
const TWO: [u8; 51] = [
    0x01, 0x00, 0x00, 0x00, 0x00, 0x02, //
    0x15, 0x01, 0x00, 0x00, 0x02, 0xFF, 0xFF, 0xFF, 0xFF, 0xFF, 0xFF, 0xFF, 0xFF, //
    0xFF, 0xFF, 0xFF, 0xFF, 0x02, 0xD0, 0x02, 0x40, //
    0x18, 0x01, 0x01, 0x00, 0x04, 0x00, 0x02, 0xEE, 0x00, 0x00, 0x02, 0xEE, 0x00, //
    0x00, 0x02, 0xEE, 0x00, 0xFF, 0xFF, 0xFF, 0xFF, 0xA1, 0xA2, 0xA3, //
];

fn video() -> Stream<'static> {
    Stream {
        pid: 0x100,
        stream_type: 2,
        avg_bitrate: 0xFFFF_FFFF,
        max_bitrate: 0xFFFF_FFFF,
        min_bitrate: 0xFFFF_FFFF,
        h_resolution: 720,
        v_resolution: 576,
        kept: &[],
    }
}

fn audio() -> Stream<'static> {
    Stream {
        pid: 0x101,
        stream_type: 4,
        avg_bitrate: 192_000,
        max_bitrate: 192_000,
        min_bitrate: 192_000,
        h_resolution: 0xFFFF,
        v_resolution: 0xFFFF,
        kept: &[0xA1, 0xA2, 0xA3],
    }
}

fn both() -> Streams {
    let mut list = Streams::new(0x100);
    assert!(list.push(&video()));
    assert!(list.push(&audio()));
    list
}

#[test]
fn two_streams_are_read() {
    let bytes = [&TWO[..], &[9; 40]].concat();
    let (list, taken) = Streams::read(&bytes).expect("good structures");
    assert_eq!(taken, TWO.len());
    assert_eq!(list.pcr_pid(), 0x100);
    assert!(list.iter().eq([video(), audio()]));
    assert!(list == both());
}

#[test]
fn two_streams_are_written() {
    let mut out = [7; 60];
    assert_eq!(both().write(&mut out), Some(&TWO[..]));
    assert_eq!(out[TWO.len()..], [7; 9]);
}

#[test]
fn nothing_is_read_of_a_bad_list() {
    for (at, byte) in [(0, 0x20), (2, 1), (5, 17), (6, 20), (7, 0x20), (27, 0x19)] {
        let mut bytes = TWO;
        bytes[at] = byte;
        assert!(Streams::read(&bytes).is_none(), "byte {at}");
    }
    let mut unknown_type = TWO;
    unknown_type[9..11].fill(0xFF);
    assert!(Streams::read(&unknown_type).is_none());
    for length in 0..TWO.len() {
        assert!(Streams::read(&TWO[..length]).is_none(), "{length} bytes");
    }
}

#[test]
fn nothing_is_written_of_a_bad_list() {
    let mut out = [7; 60];
    let mut high = Streams::new(0x2000);
    assert!(high.push(&video()));
    assert_eq!(high.write(&mut out), None);
    let mut pid = Streams::new(0);
    assert!(pid.push(&Stream {
        pid: 0x2000,
        ..video()
    }));
    assert_eq!(pid.write(&mut out), None);
    let mut kind = Streams::new(0);
    assert!(kind.push(&Stream {
        stream_type: 0xFFFF,
        ..video()
    }));
    assert_eq!(kind.write(&mut out), None);
    assert_eq!(both().write(&mut out[..TWO.len() - 1]), None);
    assert_eq!(out, [7; 60]);
}

#[test]
fn the_longest_list_comes_back() {
    let kept = [0x5A; KEPT / 16];
    let mut list = Streams::new(0x1FFF);
    for pid in 0..16 {
        let longest = Stream {
            pid,
            kept: &kept,
            ..audio()
        };
        assert!(list.push(&longest));
    }
    assert!(!list.push(&video()));
    let mut out = [0; 6 + 16 * 255];
    let written = list.write(&mut out).expect("room for all").to_vec();
    assert_eq!(written.len(), 6 + 16 * 255);
    let (back, taken) = Streams::read(&written).expect("what was written");
    assert_eq!(taken, written.len());
    assert!(back == list);
}

#[test]
fn a_list_without_streams_takes_six_bytes() {
    let mut out = [0; 6];
    let none = Streams::new(0x1FFF);
    let written = none.write(&mut out).expect("six bytes").to_vec();
    assert_eq!(written, [0x1F, 0xFF, 0, 0, 0, 0]);
    assert_eq!(Streams::read(&written).expect("none").1, 6);
}
