//! Separate PIDs by hand from J.280's Tables 7-6 and 8-6.

use rules::right::READING;
use rules::streams::{write, Stream, Streams};

fn read(bytes: &[u8]) -> Result<(Streams, usize), &'static str> {
    READING.streams(bytes)
}

/// Two structures by hand from Table 8-6: a video of 1920 x 1080 with three bytes behind its 21, and an audio.
const TWO: [u8; 51] = [
    0x00, 0x31, 0x00, 0x00, 0x00, 0x02, // PcrPID 49, PIDCount 2
    0x18, 0x00, 0x32, 0x00, 0x1B, // Length 24, PID 50, StreamType 0x1B
    0x00, 0x3D, 0x09, 0x00, // AvgBitrate 4,000,000
    0x00, 0x5B, 0x8D, 0x80, // MaxBitrate 6,000,000
    0xFF, 0xFF, 0xFF, 0xFF, // MinBitrate not known
    0x07, 0x80, 0x04, 0x38, // 1920 x 1080
    0x05, 0x01, 0xAA, // kept
    0x15, 0x1F, 0xFF, 0x00, 0x81, // Length 21, PID 0x1FFF, StreamType 0x81
    0x00, 0x05, 0xDC, 0x00, 0x00, 0x05, 0xDC, 0x00, 0x00, 0x00, 0xFF, 0xFF, // rates
    0xFF, 0xFF, 0xFF, 0xFF, // no picture
];

fn two() -> Streams {
    let video = Stream {
        pid: 50,
        kind: 0x1B,
        average: 4_000_000,
        highest: 6_000_000,
        lowest: 0xFFFF_FFFF,
        width: 1_920,
        height: 1_080,
        kept: vec![0x05, 0x01, 0xAA],
    };
    let audio = Stream {
        pid: 0x1FFF,
        kind: 0x81,
        average: 384_000,
        highest: 384_000,
        lowest: 0xFFFF,
        width: 0xFFFF,
        height: 0xFFFF,
        kept: Vec::new(),
    };
    Streams { pcr_pid: 49, list: vec![video, audio] }
}

#[test]
fn fields_stand_where_table_8_6_says() {
    assert_eq!(read(&TWO), Ok((two(), 51)));
    assert_eq!(write(&two()), Some(TWO.to_vec()));
    // What follows is not taken.
    let longer = [&TWO[..], &[9, 9, 9]].concat();
    assert_eq!(read(&longer), Ok((two(), 51)));
    let none = [0x1F, 0xFF, 0, 0, 0, 0];
    let (empty, taken) = read(&none).unwrap();
    assert_eq!((empty.pcr_pid, empty.list.len(), taken), (0x1FFF, 0, 6));
    assert_eq!(write(&empty), Some(none.to_vec()));
}

fn changed(at: usize, value: u8) -> Result<(Streams, usize), &'static str> {
    let mut bytes = TWO;
    bytes[at] = value;
    read(&bytes)
}

#[test]
fn each_123_alone() {
    for (at, value, branch) in [
        (0, 0x20, "123 Splice PcrPID above 0x1FFF"),
        (5, 17, "123 Splice PIDCount above 16"),
        (2, 1, "123 Splice PIDCount above 16"),
        (5, 3, "123 Splice structure missing"),
        (6, 20, "123 Splice structure of Length below 21"),
        (6, 0, "123 Splice structure of Length below 21"),
        (6, 46, "123 Splice structure past the message's end"),
        (30, 22, "123 Splice structure past the message's end"),
        (7, 0x20, "123 Splice PID above 0x1FFF"),
        (31, 0x20, "123 Splice PID above 0x1FFF"),
    ] {
        assert_eq!(changed(at, value), Err(branch), "{at} {value}");
    }
    let mut bytes = TWO;
    bytes[9..11].fill(0xFF);
    assert_eq!(read(&bytes), Err("123 Splice StreamType 0xFFFF"));
    bytes[10] = 0xFE;
    assert!(read(&bytes).is_ok());
    for cut in 0..6 {
        let found = read(&TWO[..cut]);
        assert_eq!(found, Err("123 Splice without a whole PIDCount"));
    }
    for cut in 6..51 {
        assert!(read(&TWO[..cut]).is_err(), "{cut}");
    }
}

#[test]
fn length_counts_itself_and_may_swallow_the_rest() {
    // The first structure takes the second one's bytes as its own, if only one is announced.
    let mut bytes = TWO;
    bytes[5] = 1;
    bytes[6] = 45;
    let (streams, taken) = read(&bytes).unwrap();
    assert_eq!((streams.list.len(), taken), (1, 51));
    assert_eq!(streams.list[0].kept, &TWO[27..]);
}

#[test]
fn only_what_can_be_read_back_is_written() {
    let mut changes: Vec<fn(&mut Streams)> = vec![
        |s| s.pcr_pid = 0x2000,
        |s| s.list[1].pid = 0x2000,
        |s| s.list[0].kind = 0xFFFF,
        |s| s.list[0].kind = 0x1_0000,
        |s| s.list[0].average = 1 << 32,
        |s| s.list[1].highest = 1 << 32,
        |s| s.list[1].lowest = 1 << 63,
        |s| s.list[0].width = 0x1_0000,
        |s| s.list[1].height = 0x1_0000,
        |s| s.list[0].kept = vec![0; 235],
        |s| s.list = vec![s.list[0].clone(); 17],
    ];
    for change in changes.drain(..) {
        let mut streams = two();
        change(&mut streams);
        assert_eq!(write(&streams), None, "{streams:?}");
    }
    let mut largest = two();
    largest.list = vec![largest.list[1].clone(); 16];
    largest.list[3].kept = vec![7; 234];
    let bytes = write(&largest).unwrap();
    assert_eq!(bytes.len(), 6 + 16 * 21 + 234);
    assert_eq!(read(&bytes), Ok((largest, bytes.len())));
}
