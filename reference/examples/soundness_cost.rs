//! The cost of the soundness test with 256 records of 130-byte DUIDs that differ only at the end.
use reference::*;
use std::time::Instant;

fn main() {
    let mut table = Box::new([0u8; TABLE_BYTES]);
    assert_eq!(pd_box_start(&mut table, 0x2001_0db8_0000_a000, 0, 48, 60, 60, 120, 120, 0, b"box", 0), 10 << 16);
    assert_eq!(pd_box_start(&mut table, 0x2001_0db8_0000_0000, 0, 48, 60, 60, 120, 120, 0, b"box", 0), 0);
    let mut room = [0u8; 512];
    for n in 0..=255u8 {
        let mut text = vec![3, 0, 0, 0, 0, 1, 0, 130];
        text.extend_from_slice(&[7; 129]);
        text.push(n);
        text.extend_from_slice(&[0, 2, 0, 3, b'b', b'o', b'x', 0, 25, 0, 12, 0, 0, 0, 1, 0, 0, 0, 0, 0, 0, 0, 0]);
        assert!(pd_box_handle(&mut table, 0, &text, &mut room) < 65_536);
    }
    let rounds = 2_000;
    let start = Instant::now();
    for _ in 0..rounds {
        assert_eq!(pd_box_live(&table, 1), 256);
    }
    println!("{:?} a call", start.elapsed() / rounds);
}
