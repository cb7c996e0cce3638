//! E1 to E12 of document 01.
mod common;
use common::*;
use reference::prefix::Prefix;
use reference::wire::{exclude_option, read_lone_exclude, write_lone};

const BEE0: Prefix = Prefix::new(0x2001_0db8_dead_bee0_0000_0000_0000_0000, 59);

fn wrote(parent: Prefix, excluded: Prefix) -> Vec<u8> {
    let mut room = [0xEEu8; 32];
    let word = write_lone(exclude_option(parent, excluded), &mut room);
    assert!(word < 65_536, "refused {}", word >> 16);
    room[..word as usize].to_vec()
}

fn refused_5(parent: Prefix, text: &str) {
    assert_eq!(read_lone_exclude(parent, &hex(text)).unwrap_err().number, 5, "{text}");
}

#[test]
fn e1_beef_64() {
    let beef = Prefix::new(0x2001_0db8_dead_beef_0000_0000_0000_0000, 64);
    assert_eq!(wrote(BEE0, beef), hex("00 43 00 02 40 78"));
    assert_eq!(read_lone_exclude(BEE0, &hex("00 43 00 02 40 78")), Ok(beef));
}

#[test]
fn e2_beef_8000_65() {
    let beef = Prefix::new(0x2001_0db8_dead_beef_8000_0000_0000_0000, 65);
    assert_eq!(wrote(BEE0, beef), hex("00 43 00 02 41 7c"));
    assert_eq!(read_lone_exclude(BEE0, &hex("00 43 00 02 41 7c")), Ok(beef));
}

#[test]
fn e3_pad_bit() {
    refused_5(BEE0, "00 43 00 02 40 79");
}

#[test]
fn e4_b_is_59() {
    refused_5(BEE0, "00 43 00 02 3b 78");
}

#[test]
fn e5_a_byte_too_many() {
    refused_5(BEE0, "00 43 00 03 40 78 00");
}

#[test]
fn e6_two_bytes() {
    let parent = Prefix::new(0x2001_0db8_0007_0000_0000_0000_0000_0000, 48);
    let excluded = Prefix::new(0x2001_0db8_0007_1234_0000_0000_0000_0000, 64);
    assert_eq!(wrote(parent, excluded), hex("00 43 00 03 40 12 34"));
    assert_eq!(read_lone_exclude(parent, &hex("00 43 00 03 40 12 34")), Ok(excluded));
}

#[test]
fn e7_to_e11_in_turn() {
    let mut table = start_box(0, 0);
    let length = |n: u8| vec![ia_prefix(0, 0, n, ZERO, &[])];
    let bound = |group, n| vec![ia_prefix(1_800, 3_600, n, at(group), &[])];

    // E7: no hint.
    assert_eq!(handle(&mut table, 1, &request(1, &[])), answer(7, 1, 900, 1_440, &bound(0xaa00, 60)));
    // E8: length 58.
    assert_eq!(handle(&mut table, 1, &request(2, &length(58))), answer(7, 2, 900, 1_440, &bound(0xaa40, 58)));
    // E9: 57.
    assert_eq!(handle(&mut table, 1, &request(3, &length(57))), answer(7, 3, 900, 1_440, &bound(0xaa80, 57)));
    // E10: 58 again, but only a /59 is left.
    assert_eq!(handle(&mut table, 1, &request(4, &length(58))), answer(7, 4, 900, 1_440, &bound(0xaa20, 59)));
    // E11: none.
    assert_eq!(handle(&mut table, 1, &request(5, &[])), answer(7, 5, 900, 1_440, &bound(0xaa10, 60)));
    assert_eq!(
        handle(&mut table, 1, &request(6, &[])),
        answer(7, 6, 0, 0, &[status(6, "NoPrefixAvail")])
    );

    let expected = [
        record_bytes(&who(1), 9, 0xaa00, 60, 0, 3_601),
        record_bytes(&who(2), 9, 0xaa40, 58, 0, 3_601),
        record_bytes(&who(3), 9, 0xaa80, 57, 0, 3_601),
        record_bytes(&who(4), 9, 0xaa20, 59, 0, 3_601),
        record_bytes(&who(5), 9, 0xaa10, 60, 0, 3_601),
    ];
    for (i, one) in expected.iter().enumerate() {
        assert_eq!(&record(&table, i as u64), one, "record {i}");
    }
    assert_eq!(record(&table, 5), []);
}

#[test]
fn e12_t1_and_t2() {
    let with = |preferred: u32, valid: u32, t1: u32, t2: u32| {
        let mut table = start_box_with(56, 56, 60, preferred, valid, 0, 0);
        let inner = [ia_prefix(preferred, valid, 60, at(0xaa00), &[])];
        assert_eq!(handle(&mut table, 5, &solicit(1, &[])), answer(2, 1, t1, t2, &inner));
    };
    with(121, 121, 60, 96);
    with(4_294_967_294, 0xFFFF_FFFF, 2_147_483_647, 3_435_973_835);
    with(0xFFFF_FFFF, 0xFFFF_FFFF, 0xFFFF_FFFF, 0xFFFF_FFFF);
    with(120, 0xFFFF_FFFF, 60, 96);
    with(124, 200, 62, 99);
}
