//! Configuration on request (02, CR 6).

use crate::people::card;
use crate::people::record_lines::{Record, What};
use crate::people::scenario::message;
use rules::config::nothing;
use rules::right::READING;
use rules::state::{Maps, Splicer, ROOM};

/// 66 bytes of data for "CH1", and these behind.
fn init(behind: &[u8]) -> Vec<u8> {
    let mut data = vec![0; 66];
    data[1] = 2;
    data[2..5].copy_from_slice(b"CH1");
    data.extend(behind);
    data
}

#[test]
fn boundaries_of_a_hardware_config() {
    let read = |behind: &[u8]| READING.hardware(&init(behind));
    for behind in [&[][..], &[0]] {
        assert_eq!(read(behind), Err("123 Init of 66 or 67 bytes"));
    }
    assert_eq!(read(&[0, 0]), Ok(vec![0, 0]));
    assert_eq!(read(&[0, 0, 9, 9]), Ok(vec![0, 0]));
    assert_eq!(read(&[0, 1, 9]), Ok(vec![0, 1, 9]));
    let past = Err("123 Init Hardware_Config past the end");
    assert_eq!(read(&[0, 1]), past);
    assert_eq!(read(&[0, 3, 9]), Err("123 Init Hardware_Config past the end"));
    // Length 254 in 322 bytes
    let most = [&[0, 254][..], &[7; 254]].concat();
    assert_eq!(init(&most).len(), 322);
    assert_eq!(read(&most), Ok(most.clone()));
    assert_eq!(read(&most[..255]), past);
    let over = [&[0, 255][..], &[7; 300]].concat();
    assert_eq!(read(&over), Err("123 Init Hardware_Config over 256 bytes"));
    let far = [&[1, 0][..], &[7; 300]].concat();
    assert_eq!(read(&far), Err("123 Init Hardware_Config over 256 bytes"));
}

fn ready() -> Splicer {
    let (mut splicer, _) = Splicer::fresh(&card::channel_name());
    splicer.open(0).unwrap();
    let bytes = message(0x0001, init(&[0, 1, 9]));
    splicer.message(0, &bytes, ROOM).unwrap();
    splicer
}

#[test]
fn number_10_stands_behind_7_and_before_5() {
    let long = [0; 1_025];
    let cases = [(&long[..], &long[..1]), (&long[..1], &long[..])];
    for (primary, insertion) in cases {
        let maps = Maps { primary, insertion };
        let mut splicer = ready();
        let mut told = |conn, bytes: &[u8], room| splicer.message_with(conn, bytes, &maps, room);
        assert_eq!(told(4, &[], 0), Err(1));
        assert_eq!(told(0, &[], ROOM - 1), Err(2));
        assert_eq!(told(1, &[], ROOM), Err(7));
        assert_eq!(told(0, &[], ROOM), Err(10));
        assert_eq!(told(0, &[0, 0, 0xFF, 0xFF, 0, 0, 0, 0], ROOM), Err(10));
        assert_eq!(told(0, &message(0x0000, Vec::new()), ROOM), Err(10));
        assert_eq!(told(0, &message(0x000A, Vec::new()), ROOM), Err(10));
    }
}

#[test]
fn the_map_is_the_one_on_air() {
    let (primary, insertion) = (&[1; 1_024][..], &[2; 1_023][..]);
    let maps = Maps { primary, insertion };
    let mut splicer = ready();
    let shown = |splicer: &mut Splicer| {
        let bytes = message(0x000A, Vec::new());
        let (out, consumed) = splicer.message_with(0, &bytes, &maps, ROOM).unwrap();
        assert_eq!(consumed, 8);
        match &out[..] {
            [Record { conn: 0, what: What::Config { hardware, map, .. } }] => {
                assert_eq!(hardware, &[0, 1, 9]);
                map.clone()
            }
            other => panic!("{other:?}"),
        }
    };
    assert_eq!(shown(&mut splicer), primary);
    let mut data = vec![0; 33];
    data[4..8].fill(0xFF);
    data[11] = 9;
    data[20] = 1;
    splicer.message(0, &message(0x0007, data), ROOM).unwrap();
    assert_eq!(shown(&mut splicer), primary);
    splicer.tick(9, 0, ROOM).unwrap();
    assert_eq!(shown(&mut splicer), insertion);
    assert_eq!(splicer.map(&Maps::EMPTY), &[0; 0]);
    splicer.tick(20, 0, ROOM).unwrap();
    assert_eq!(shown(&mut splicer), primary);
}

#[test]
fn close_forgets_and_a_refused_one_does_not() {
    let mut splicer = ready();
    assert_eq!(splicer.close(0, ROOM - 1), Err(2));
    assert_eq!(splicer.hardware[0], [0, 1, 9]);
    splicer.close(0, ROOM).unwrap();
    assert_eq!(splicer.hardware[0], nothing());
}
