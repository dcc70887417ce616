//! Recordings (02, CR 14).

use crate::people::make_recording::{first, recorded, First};

#[test]
fn the_entry_at_the_front() {
    let cases: [(&[u8], First); 14] = [
        (&[0x4F, 9, 0x4F], First::Whole(2)),
        (&[0x43, 0], First::Whole(2)),
        (&[0x45, 7], First::Whole(2)),
        (&[0x45], First::Cut { needs: 2 }),
        (&[0x54; 10], First::Whole(10)),
        (&[0x54; 9], First::Cut { needs: 10 }),
        (&[0x52, 0, 0, 9, 0, 1, 0, 0, 0], First::Cut { needs: 10 }),
        (&[0x52, 0, 0, 9, 0, 1, 0, 0, 0, 0], First::Cut { needs: 11 }),
        (&[0x52, 0, 0, 9, 0, 1, 0, 0, 0, 0, 0], First::Whole(11)),
        (&[0x4D, 0, 0, 9, 0x0F, 0xF8, 0, 0, 0, 0], First::Cut { needs: 4098 }),
        (&[0x4D, 0, 0, 9, 0x0F, 0xF9, 0, 0, 0, 0], First::Whole(10)),
        (&[0x52, 0, 0, 9, 0xFF, 0xFF, 0, 0, 0, 0, 1], First::Whole(10)),
        (&[0x00], First::Unknown),
        (&[0x53, 0x4F, 0], First::Unknown),
    ];
    for (bytes, expected) in cases {
        assert_eq!(first(bytes), expected, "{bytes:02X?}");
    }
}

#[test]
fn the_whole_case_as_a_recording() {
    let hex = |text: &str| -> Vec<u8> {
        let parts = text.split_whitespace();
        parts.map(|p| u8::from_str_radix(p, 16).unwrap()).collect()
    };
    let input = hex("4F 00 4D 00 00 05 00 08 FF FF FF FF 00 00 00 00 00 00 00 00 43 00 43 00");
    let expected = hex("4F 00 4D 00 00 05 00 08 FF FF FF FF 00 00 00 00 00 00 00 00 \
         52 00 00 00 00 00 00 67 FF FF 43 00 43 00 45 07");
    assert_eq!(recorded(&input), expected);
}
