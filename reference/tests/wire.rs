//! The reader: what is malformed, where, and what isn't.
mod common;
use common::*;
use reference::prefix::Prefix;
use reference::wire::{
    client_id, exclude_option, ia_prefix_option, option, read_lone_exclude, read_lone_ia_prefix, read_message,
    write_lone, Why,
};

fn broken(options: &[Vec<u8>]) -> (usize, Why) {
    let text = message(1, 0, options);
    let fault = read_message(&text).expect_err("malformed");
    assert_eq!(fault.number, 5);
    (fault.place, fault.why)
}

fn fine(options: &[Vec<u8>]) {
    read_message(&message(1, 0, options)).expect("well formed");
}

#[test]
fn the_length_of_a_text() {
    for length in [0, 3, 1_233] {
        let fault = read_message(&vec![0; length]).unwrap_err();
        assert_eq!((fault.number, fault.why), (3, Why::TextLength));
    }
    let read = read_message(&[99, 1, 2, 3]).unwrap();
    assert_eq!((read.kind, read.transaction), (99, 0x010203), "any type is read");
    read_message(&[0; 1_232]).unwrap();
}

#[test]
fn left_over_and_running_past() {
    for n in 1..=3 {
        assert_eq!(broken(&[opt(17, &[]), vec![0; n]]), (8, Why::LeftOver));
        assert_eq!(broken(&[ia_pd(1, 0, 0, &[vec![0; n]])]), (20, Why::LeftOver));
        assert_eq!(broken(&[ia_pd(1, 0, 0, &[ia_prefix(0, 0, 60, ZERO, &[vec![0; n]])])]), (49, Why::LeftOver));
    }
    fine(&[opt(17, &[]), vec![0; 4]]);
    fine(&[ia_pd(1, 0, 0, &[vec![0; 4]])]);
    fine(&[ia_pd(1, 0, 0, &[ia_prefix(0, 0, 60, ZERO, &[vec![0; 4]])])]);
    assert_eq!(broken(&[vec![0, 17, 0, 1]]), (4, Why::RunsPast));
    assert_eq!(broken(&[vec![0, 17, 0xFF, 0xFF]]), (4, Why::RunsPast));
    assert_eq!(broken(&[ia_pd(1, 0, 0, &[vec![0, 17, 0, 1]]), opt(17, &[])]), (20, Why::RunsPast));
    let inner = ia_prefix(0, 0, 60, ZERO, &[vec![0, 17, 0, 1]]);
    assert_eq!(broken(&[ia_pd(1, 0, 0, &[inner, opt(17, &[])])]), (49, Why::RunsPast));
}

#[test]
fn fixed_parts() {
    assert_eq!(broken(&[opt(6, &[0])]), (4, Why::OptionRequestOdd));
    fine(&[opt(6, &[]), opt(6, &[0, 1])]);
    assert_eq!(broken(&[opt(25, &[0; 11])]), (4, Why::IaPdShort));
    assert_eq!(broken(&[opt(25, &[])]), (4, Why::IaPdShort));
    fine(&[opt(25, &[0; 12])]);
    assert_eq!(broken(&[ia_pd(1, 0, 0, &[opt(26, &[0; 24])])]), (20, Why::IaPrefixShort));
    fine(&[ia_pd(1, 0, 0, &[opt(26, &[0; 25])])]);
    assert_eq!(broken(&[ia_pd(1, 0, 0, &[ia_prefix(0, 0, 129, ZERO, &[])])]), (20, Why::PrefixLength));
    fine(&[ia_pd(1, 0, 0, &[ia_prefix(0, 0, 128, ZERO, &[])])]);
    for length in 0..2 {
        let short = opt(13, &vec![0; length]);
        assert_eq!(broken(&[short.clone()]), (4, Why::StatusShort));
        assert_eq!(broken(&[ia_pd(1, 0, 0, &[short.clone()])]), (20, Why::StatusShort));
        assert_eq!(broken(&[ia_pd(1, 0, 0, &[ia_prefix(0, 0, 60, ZERO, &[short])])]), (49, Why::StatusShort));
    }
    for length in [0, 1, 2, 3, 130, 131, 400] {
        fine(&[opt(1, &vec![0; length]), opt(2, &vec![0; length])]);
    }
}

#[test]
fn not_read_where_it_stands() {
    // Only the length against the enclosing area is judged.
    fine(&[opt(26, &[]), opt(67, &[]), opt(26, &[0xFF; 30]), opt(67, &[0xFF; 30])]);
    fine(&[ia_pd(1, 0, 0, &[opt(67, &[]), opt(1, &[]), opt(2, &[]), opt(6, &[1]), opt(25, &[])])]);
    let inner = [opt(26, &[]), opt(1, &[]), opt(2, &[]), opt(6, &[1]), opt(25, &[])];
    fine(&[ia_pd(1, 0, 0, &[ia_prefix(0, 0, 60, ZERO, &inner)])]);
    // A Client ID inside an IA_PD isn't one.
    let text = message(1, 0, &[ia_pd(1, 0, 0, &[opt(1, &[1, 2, 3]), opt(6, &[0, 67]), opt(25, &[0; 12])])]);
    let read = read_message(&text).unwrap();
    assert_eq!((read.client_ids.len(), read.asks_exclude, read.ia_pds.len()), (0, false, 1));
}

#[test]
fn pd_excludes() {
    let inside = |length: u8, inner: &[Vec<u8>]| vec![ia_pd(1, 0, 0, &[ia_prefix(0, 0, length, ZERO, inner)])];
    let one = |length: u8, content: &[u8]| broken(&inside(length, &[opt(67, content)]));
    assert_eq!(one(59, &[]), (49, Why::ExcludeContentLength));
    assert_eq!(one(59, &[64]), (49, Why::ExcludeContentLength));
    assert_eq!(one(59, &[64, 0, 0]), (49, Why::ExcludeContentLength));
    assert_eq!(one(59, &[59, 0]), (49, Why::ExcludedLength));
    assert_eq!(one(59, &[58, 0]), (49, Why::ExcludedLength));
    assert_eq!(one(59, &[0]), (49, Why::ExcludedLength));
    assert_eq!(one(120, &[129, 0, 0]), (49, Why::ExcludedLength));
    assert_eq!(one(128, &[129, 0]), (49, Why::ExcludedLength));
    assert_eq!(one(128, &[128]), (49, Why::ExcludedLength));
    for bit in 0..3 {
        assert_eq!(one(59, &[64, 1 << bit]), (49, Why::ExcludePad));
    }
    fine(&inside(59, &[opt(67, &[64, 1 << 3])]));
    fine(&inside(56, &[opt(67, &[64, 0xFF])]));
    fine(&inside(127, &[opt(67, &[128, 0x80])]));
    assert_eq!(one(127, &[128, 0xC0]), (49, Why::ExcludePad));
    fine(&inside(0, &[opt(67, &[[128u8].as_slice(), &[0xFF; 16]].concat())]));
    // 63 - 55 = 8 bits take one byte, 64 - 55 = 9 take two.
    fine(&inside(55, &[opt(67, &[63, 0xFF])]));
    assert_eq!(one(55, &[64, 0xFF]), (49, Why::ExcludeContentLength));
    fine(&inside(55, &[opt(67, &[64, 0xFF, 0x80])]));
    assert_eq!(one(55, &[64, 0xFF, 0xC0]), (49, Why::ExcludePad));
    // Twice, equal or not.
    let twice = inside(59, &[opt(67, &[64, 0]), opt(17, &[]), opt(67, &[64, 0])]);
    assert_eq!(broken(&twice), (59, Why::ExcludeTwice));
    let differ = inside(59, &[opt(67, &[64, 0]), opt(67, &[64, 8])]);
    assert_eq!(broken(&differ), (55, Why::ExcludeTwice));
}

#[test]
fn what_a_whole_message_holds() {
    let listed = ia_prefix(1, 2, 59, [0x2001, 0xdb8, 0xdead, 0xbeff, 0, 0, 0, 9], &[hex("0043 0002 40 78"), status(5, "x")]);
    let text = message(
        3,
        0xABCDEF,
        &[client(&[1, 2, 3]), server(&[4, 5, 6]), asks_67(), status(2, ""), ia_pd(7, 8, 9, &[status(3, ""), listed])],
    );
    let read = read_message(&text).unwrap();
    assert_eq!((read.kind, read.transaction), (3, 0xABCDEF));
    assert_eq!(read.client_ids, [&text[8..11]]);
    assert_eq!(read.client_ids[0].as_ptr(), text[8..].as_ptr(), "that stretch of the message itself");
    assert_eq!(read.server_ids, [&[4, 5, 6]]);
    assert!(read.asks_exclude);
    assert_eq!(read.statuses, [2]);
    let ia = &read.ia_pds[0];
    assert_eq!((ia.iaid, ia.t1, ia.t2, &ia.statuses[..]), (7, 8, 9, &[3u16][..]));
    let one = &ia.prefixes[0];
    assert_eq!((one.preferred, one.valid, &one.statuses[..]), (1, 2, &[5u16][..]));
    assert_eq!(one.prefix, Prefix::new(0x2001_0db8_dead_beff_0000_0000_0000_0009, 59));
    // Only the parent's first 59 bits are used: beff::/59 is bee0, and with 01111 beef.
    assert_eq!(one.excluded, Some(Prefix::new(0x2001_0db8_dead_beef_0000_0000_0000_0000, 64)));
}

#[test]
fn the_client_id_as_a_stretch() {
    let text = message(200, 0, &[server(&[9, 9, 9]), client(&[1, 2])]);
    let stretch = client_id(&text).unwrap();
    assert_eq!(stretch, [1, 2]);
    assert_eq!(stretch.as_ptr(), text[15..].as_ptr());
    assert_eq!(client_id(&message(1, 0, &[])).unwrap(), []);
    assert_eq!(client_id(&message(1, 0, &[client(&[1, 2, 3]), client(&[1, 2, 3])])).unwrap(), []);
    assert_eq!(client_id(&[1, 0, 0]).unwrap_err().number, 3);
    assert_eq!(client_id(&message(1, 0, &[client(&[1, 2, 3]), vec![0]])).unwrap_err().number, 5);
}

#[test]
fn lone_options() {
    let parent = Prefix::new(0, 59);
    let number = |text: &str| read_lone_exclude(parent, &hex(text)).unwrap_err().number;
    assert_eq!(number("00 43 00"), 3);
    assert_eq!(number("00 42 00 02 40 78"), 5, "another code");
    assert_eq!(number("00 43 00 02 40 78 00"), 5, "not filled");
    assert_eq!(number("00 43 00 03 40 78"), 5, "runs past");
    assert_eq!(number("00 43 00 00"), 5);
    assert_eq!(read_lone_exclude(parent, &vec![0; 1_233]).unwrap_err().number, 3);
    assert_eq!(read_lone_exclude(Prefix::new(0, 128), &hex("0043 0002 80 00")).unwrap_err().number, 5);
    let listed = ia_prefix(1, 2, 59, ZERO, &[hex("0043 0002 40 79")]);
    assert_eq!(read_lone_ia_prefix(&listed).unwrap_err().number, 5);
}

#[test]
fn writers() {
    let parent = Prefix::new(0x2001_0db8_dead_bee0_0000_0000_0000_0000, 59);
    let beef = Prefix::new(0x2001_0db8_dead_beef_0000_0000_0000_0000, 64);
    let mut room = [0x5Au8; 8];
    assert_eq!(write_lone(exclude_option(parent, beef), &mut room[..5]), 2 * 65_536);
    assert!(room.iter().all(|&byte| byte == 0x5A));
    assert_eq!(write_lone(exclude_option(parent, beef), &mut room[..6]), 6);
    assert_eq!(room, [0, 0x43, 0, 2, 0x40, 0x78, 0x5A, 0x5A]);
    // No encoding: 5, before 2.
    for bad in [
        Prefix::new(beef.bits, 59),
        Prefix::new(beef.bits, 129),
        Prefix::new(beef.bits ^ (1 << 127), 64),
        Prefix::new(beef.bits | 1, 64),
        Prefix::new(beef.bits, 63),
    ] {
        assert_eq!(write_lone(exclude_option(parent, bad), &mut []), 5 * 65_536);
    }
    // Stray bits of the parent don't matter; stray bits of an IA Prefix have an encoding.
    assert!(exclude_option(Prefix::new(parent.bits | 1, 59), beef).is_some());
    assert!(ia_prefix_option(0, 0, Prefix::new(u128::MAX, 0), None).is_some());
    assert!(ia_prefix_option(0, 0, Prefix::new(0, 129), None).is_none());
    assert!(ia_prefix_option(0, 0, parent, Some(Prefix::new(0, 0))).is_none());
    assert!(option(1, &[0; 65_535]).is_some() && option(1, &[0; 65_536]).is_none());
}
