//! "Not readable", by hand from 01 and J.280's tables.

use crate::reading::{read, Read, Request, SpliceFields};

fn good_splice() -> Vec<u8> {
    let mut data = vec![0; 33];
    data[3] = 7; // SessionID 7
    data[4..8].fill(0xFF); // timed
    data[17] = 1; // ServiceID 1
    data[21] = 1; // Duration 1
    data
}

fn changed(at: usize, value: u8) -> Read {
    let mut data = good_splice();
    data[at] = value;
    read(7, &data)
}

#[test]
fn splice_fields_stand_where_01_says() {
    let mut data = good_splice();
    data[8..16].copy_from_slice(&[0, 0, 3, 0xEB, 0, 0, 0, 5]);
    data[30] = 9;
    data[31] = 1;
    let expected = SpliceFields {
        id: 7,
        prior: 0xFFFF_FFFF,
        seconds: 1_003,
        micros: 5,
        duration: 1,
        event: 0,
        access: 9,
        overrides: 1,
        mux: 5,
        streams: None,
    };
    assert_eq!(read(7, &data), Ok(Request::Splice(expected)));
}

#[test]
fn boundaries_of_a_splice() {
    assert!(read(7, &good_splice()).is_ok());
    assert_eq!(read(7, &good_splice()[..32]), Err("123 Splice below 33 bytes"));
    assert_eq!(read(7, &good_splice()[..17]), Err("123 Splice below 18 bytes"));
    assert_eq!(changed(21, 0), Err("123 Splice Duration 0"));
    assert!(changed(30, 9).is_ok());
    assert_eq!(changed(30, 10), Err("123 Splice AccessType above 9"));
    assert!(changed(31, 1).is_ok());
    assert_eq!(changed(31, 2), Err("123 Splice OverridePlaying above 1"));
    assert!(changed(32, 1).is_ok());
    assert_eq!(changed(32, 2), Err("123 Splice ReturnToPriorChannel above 1"));
}

#[test]
fn microseconds_count_in_a_timed_request_only() {
    let mut data = good_splice();
    data[12..16].copy_from_slice(&999_999u32.to_be_bytes());
    assert!(read(7, &data).is_ok());
    data[12..16].copy_from_slice(&1_000_000u32.to_be_bytes());
    assert_eq!(read(7, &data), Err("123 Splice timed MicroSeconds above 999,999"));
    data[7] = 0; // now a linked request
    assert!(read(7, &data).is_ok());
}

/// The good one with PcrPID 7 and these structures behind ServiceID 0xFFFF.
fn separate(structures: &[u8]) -> Vec<u8> {
    let count = (structures.len() / 21) as u8;
    let mut data = good_splice();
    let tail = data.split_off(18);
    data[16..18].fill(0xFF);
    data.extend([0, 7, 0, 0, 0, count]);
    data.extend(structures);
    data.extend(tail);
    data
}

#[test]
fn separate_pids_move_the_tail() {
    let mut plain = vec![0; 21];
    plain[0] = 21;
    let two = [&plain[..], &plain[..]].concat();
    for structures in [&[][..], &plain[..], &two[..]] {
        let data = separate(structures);
        let Ok(Request::Splice(fields)) = read(7, &data) else {
            panic!("not readable: {data:?}");
        };
        assert_eq!((fields.id, fields.duration), (7, 1));
        let found = fields.streams.map(|s| (s.pcr_pid, s.list.len()));
        assert_eq!(found, Some((7, structures.len() / 21)));
        let cut = read(7, &data[..data.len() - 1]);
        assert_eq!(cut, Err("123 Splice below 15 bytes behind the structures"));
    }
    // 39 bytes are the smallest good one, and 18 to 23 have no whole PIDCount.
    assert_eq!(separate(&[]).len(), 39);
    for length in 18..24 {
        assert_eq!(read(7, &separate(&[])[..length]), Err("123 Splice without a whole PIDCount"));
    }
}

#[test]
fn the_other_reading_rules_hold_behind_separate_pids() {
    let with = |at: usize, value: u8| {
        let mut data = separate(&[]);
        data[at] = value;
        read(7, &data)
    };
    assert_eq!(with(27, 0), Err("123 Splice Duration 0"));
    assert_eq!(with(36, 10), Err("123 Splice AccessType above 9"));
    assert_eq!(with(37, 2), Err("123 Splice OverridePlaying above 1"));
    assert_eq!(with(38, 2), Err("123 Splice ReturnToPriorChannel above 1"));
    let micros = with(12, 1);
    assert_eq!(micros, Err("123 Splice timed MicroSeconds above 999,999"));
    let mut data = separate(&[]);
    data.extend([1, 4, 0, 0, 0, 0]);
    assert!(read(7, &data).is_ok());
    data.pop();
    assert_eq!(read(7, &data), Err("123 Splice descriptor beyond the message"));
}

#[test]
fn descriptors_fill_the_message_exactly() {
    let with = |bytes: &[u8]| {
        let mut data = good_splice();
        data.extend(bytes);
        read(7, &data)
    };
    assert!(with(&[1, 4, 0, 0, 0, 0]).is_ok());
    assert!(with(&[1, 4, 0, 0, 0, 0, 2, 5, 0, 0, 0, 0, 99]).is_ok());
    assert_eq!(with(&[1]), Err("123 Splice descriptor without a length"));
    assert_eq!(with(&[1, 3, 0, 0, 0]), Err("123 Splice descriptor length below 4"));
    assert_eq!(with(&[1, 4, 0, 0, 0]), Err("123 Splice descriptor beyond the message"));
    let mut long = vec![1, 254];
    long.extend([0; 254]);
    assert!(with(&long).is_ok());
    long[1] = 255;
    long.push(0);
    assert_eq!(with(&long), Err("123 Splice descriptor length 255"));
}

#[test]
fn init_alive_and_abort_sizes() {
    assert!(read(1, &[0; 68]).is_ok());
    for size in [66, 67] {
        let short = read(1, &vec![0; size]);
        assert_eq!(short, Err("123 Init of 66 or 67 bytes"));
    }
    assert_eq!(read(1, &[0; 65]), Err("123 Init below 66 bytes"));
    let mut names = [65; 68];
    names[65..].fill(0);
    assert_eq!(read(1, &names), Err("123 Init ChannelName without a zero"));
    names[33] = 0;
    assert!(read(1, &names).is_ok());
    names[65] = 1;
    assert_eq!(read(1, &names), Err("123 Init SplicerName without a zero"));
    assert_eq!(read(10, &[]), Ok(Request::Config));
    assert_eq!(read(10, &[0]), Err("123 GetConfig with data"));
    assert_eq!(read(5, &[0; 7]), Err("123 Alive below 8 bytes"));
    assert_eq!(read(5, &[0xFF; 8]), Ok(Request::Alive));
    assert_eq!(read(5, &[0; 9]), Err("123 Alive above 8 bytes"));
    assert_eq!(read(14, &[0; 3]), Err("123 Abort below 4 bytes"));
    assert_eq!(read(14, &[0, 0, 1, 0]), Ok(Request::Abort { id: 256 }));
    assert_eq!(read(14, &[0; 5]), Err("123 Abort above 4 bytes"));
}
