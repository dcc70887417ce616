//! Descriptors by hand from J.280's Tables 8-8 and 8-11.

use rules::descriptors::{self, Found};
use rules::right::READING;

type Said<'d> = Result<Option<(Found, &'d [u8])>, &'static str>;

fn first(bytes: &[u8]) -> Said<'_> {
    descriptors::first(&READING, bytes)
}

fn mux_of(bytes: &[u8]) -> Result<u8, &'static str> {
    READING.mux_of(bytes)
}

/// Table 8-11 by hand: tag 0x02, length 5, "SAPI", the value.
fn mux(value: u8) -> Vec<u8> {
    vec![0x02, 0x05, 0x53, 0x41, 0x50, 0x49, value]
}

#[test]
fn what_stands_at_a_place() {
    let bytes = [mux(7), vec![1, 4, 0x53, 0x41, 0x50, 0x49]].concat();
    assert_eq!(first(&bytes), Ok(Some((Found::Mux(7), &bytes[7..]))));
    let rest = &bytes[7..];
    assert_eq!(first(rest), Ok(Some((Found::Foreign, &[][..]))));
    assert_eq!(first(&[]), Ok(None));
    assert_eq!(first(&bytes[..6]), Err("123 Splice descriptor beyond the message"));
}

#[test]
fn tag_and_identifier_make_it() {
    let foreign = [
        [0x02, 0x05, 0x43, 0x55, 0x45, 0x49, 99], // "CUEI"
        [0x02, 0x05, 0x49, 0x50, 0x41, 0x53, 99], // "IPAS"
        [0x03, 0x05, 0x53, 0x41, 0x50, 0x49, 99],
        [0x00, 0x05, 0x53, 0x41, 0x50, 0x49, 99],
    ];
    for bytes in foreign {
        assert_eq!(first(&bytes), Ok(Some((Found::Foreign, &[][..]))));
        assert_eq!(mux_of(&bytes), Ok(5));
    }
}

#[test]
fn length_5_and_1_to_10() {
    for value in 1..=10 {
        assert_eq!(mux_of(&mux(value)), Ok(value));
    }
    assert_eq!(mux_of(&mux(0)), Err("123 Splice muxpriority value 0"));
    for value in [11, 128, 255] {
        let found = mux_of(&mux(value));
        assert_eq!(found, Err("123 Splice muxpriority value above 10"));
    }
    let four = [0x02, 0x04, 0x53, 0x41, 0x50, 0x49];
    assert_eq!(mux_of(&four), Err("123 Splice muxpriority length 4"));
    let six = [0x02, 0x06, 0x53, 0x41, 0x50, 0x49, 5, 5];
    let found = mux_of(&six);
    assert_eq!(found, Err("123 Splice muxpriority length above 5"));
}

#[test]
fn the_last_one_wins_and_each_must_be_good() {
    let foreign = vec![1, 4, 0, 0, 0, 0];
    let of = |list: &[Vec<u8>]| mux_of(&list.concat());
    assert_eq!(of(&[]), Ok(5));
    assert_eq!(of(&[foreign.clone()]), Ok(5));
    assert_eq!(of(&[mux(1), mux(10)]), Ok(10));
    assert_eq!(of(&[mux(10), foreign.clone(), mux(1), foreign]), Ok(1));
    assert!(of(&[mux(0), mux(5)]).is_err());
    assert!(of(&[mux(5), mux(11)]).is_err());
}
