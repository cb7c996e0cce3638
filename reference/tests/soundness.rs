//! Refusal 9: every rule of soundness, broken alone.
mod common;
use common::*;
use reference::*;

fn live(table: &TableBytes) -> u64 {
    pd_box_live(table, (1 << 48) - 1) >> 16
}

fn with(records: &[Vec<u8>], change: impl Fn(&mut TableBytes)) -> u64 {
    let mut table = start_box(1, 10);
    put_records(&mut table, records);
    change(&mut table);
    live(&table)
}

#[test]
fn settings_in_the_table() {
    assert_eq!(with(&[], |_| {}), 0);
    let go = |at: usize, value: u8| with(&[], |table| table[at] = value);
    assert_eq!(go(8, 1), 9, "256 records of zeros");
    assert_eq!(go(9, 1), 9, "a record of zeros");
    assert_eq!(go(17, 1), 9, "a bit after P");
    assert_eq!(go(18, 31), 9);
    assert_eq!(go(18, 55), 0);
    assert_eq!(go(18, 54), 9, "a bit after P");
    assert_eq!(go(18, 57), 9);
    assert_eq!(go(19, 55), 9);
    assert_eq!(go(19, 60), 0);
    assert_eq!(go(19, 61), 9);
    assert_eq!(go(20, 55), 9);
    assert_eq!(go(20, 61), 9);
    assert_eq!(go(21, 0), 0);
    assert_eq!(go(21, 2), 9);
    assert_eq!(go(30, 9), 9, "a byte after the DUID");
    assert_eq!(go(30, 11), 0, "a DUID with a closing zero");
    assert_eq!(go(30, 131), 9);
    assert_eq!(go(41, 1), 9, "a byte after the DUID");
    assert_eq!(go(160, 1), 9);
    assert_eq!(go(161, 1), 9);
    assert_eq!(go(175, 1), 9);
    assert_eq!(go(176, 1), 9);
    assert_eq!(go(39_343, 1), 9);
    let lifetimes = |preferred: u32, valid: u32| {
        with(&[], |table| {
            table[22..26].copy_from_slice(&preferred.to_be_bytes());
            table[26..30].copy_from_slice(&valid.to_be_bytes());
        })
    };
    assert_eq!(lifetimes(120, 120), 0);
    assert_eq!(lifetimes(119, 120), 9);
    assert_eq!(lifetimes(121, 120), 9);
    assert_eq!(lifetimes(u32::MAX, u32::MAX), 0);
    assert_eq!(lifetimes(u32::MAX, u32::MAX - 1), 9);
    let last = |last: u64| with(&[], |table| table[0..8].copy_from_slice(&last.to_be_bytes()));
    assert_eq!(last((1 << 48) - 1), 0);
    assert_eq!(last(1 << 48), 9);
}

#[test]
fn records_in_the_table() {
    let one = |duid: &[u8], group, length, excludes, end| with(&[record_bytes(duid, 9, group, length, excludes, end)], |_| {});
    let who = who(1);
    assert_eq!(one(&who, 0xaa00, 60, 1, 5), 0, "an ended record may stand");
    assert_eq!(one(&who, 0xaa00, 56, 1, 5), 0);
    assert_eq!(one(&who, 0xaa00, 55, 1, 5), 9, "shorter than S");
    assert_eq!(one(&who, 0xaa00, 61, 1, 5), 9, "longer than 60");
    assert_eq!(one(&who, 0xab00, 60, 1, 5), 9, "not in the pool");
    assert_eq!(one(&who, 0xaa08, 60, 1, 5), 9, "a bit after its length");
    assert_eq!(one(&who, 0xaa10, 59, 1, 5), 9, "a bit after its length");
    assert_eq!(one(&who, 0xaa00, 60, 2, 5), 9);
    assert_eq!(one(&who, 0xaa00, 60, 1, (1 << 49) - 1), 0);
    assert_eq!(one(&who, 0xaa00, 60, 1, 1 << 49), 9);
    assert_eq!(one(&who, 0xaa00, 60, 1, u64::MAX - 1), 9);
    assert_eq!(one(&who, 0xaa00, 60, 1, u64::MAX), 0);
    assert_eq!(one(&[1, 2], 0xaa00, 60, 1, 5), 9);
    assert_eq!(one(&[1; 130], 0xaa00, 60, 1, 5), 0);
    let good = record_bytes(&who, 9, 0xaa00, 60, 1, 5);
    assert_eq!(with(std::slice::from_ref(&good), |table| table[176] = 131), 9);
    assert_eq!(with(std::slice::from_ref(&good), |table| table[21] = 0), 9, "excluded where exclusion is off");
    assert_eq!(with(std::slice::from_ref(&good), |table| table[176 + 26] = 1), 9, "a byte after its DUID");
    assert_eq!(with(std::slice::from_ref(&good), |table| table[9] = 0), 9, "room past the last isn't zero");
    assert_eq!(with(std::slice::from_ref(&good), |table| table[9] = 2), 9);
}

#[test]
fn two_records() {
    let two = |a: (&[u8], u32, u16, u8), b: (&[u8], u32, u16, u8)| {
        with(&[record_bytes(a.0, a.1, a.2, a.3, 0, 5), record_bytes(b.0, b.1, b.2, b.3, 0, 900)], |_| {})
    };
    assert_eq!(two((b"aaa", 1, 0xaa00, 60), (b"bbb", 1, 0xaa10, 60)), 0);
    assert_eq!(two((b"aaa", 1, 0xaa00, 60), (b"bbb", 1, 0xaa00, 60)), 9, "equal, though one has ended");
    assert_eq!(two((b"aaa", 1, 0xaa00, 58), (b"bbb", 1, 0xaa30, 60)), 9);
    assert_eq!(two((b"aaa", 1, 0xaa30, 60), (b"bbb", 1, 0xaa00, 58)), 9);
    assert_eq!(two((b"aaa", 1, 0xaa40, 60), (b"bbb", 1, 0xaa00, 58)), 0);
    assert_eq!(two((b"aaa", 1, 0xaa00, 60), (b"aaa", 2, 0xaa10, 60)), 0);
    assert_eq!(two((b"aaa", 1, 0xaa00, 60), (b"aaa", 1, 0xaa10, 60)), 9);
    assert_eq!(two((b"aaa", 1, 0xaa00, 60), (b"aaa\0", 1, 0xaa10, 60)), 0, "the length counts");
}

#[test]
fn counts_of_256_and_257() {
    let mut table = [0u8; TABLE_BYTES];
    assert_eq!(pd_box_start(&mut table, 0x2001_0db8_0000_a000, 0, 51, 51, 60, 120, 120, 0, &BOX, 0), 0);
    let records: Vec<Vec<u8>> = (0..256).map(|n| record_bytes(&who(n), 9, 0xa000 + 16 * n, 60, 0, 900)).collect();
    put_records(&mut table, &records);
    assert_eq!(pd_box_live(&table, 0), 256);
    table[9] = 1;
    assert_eq!(live(&table), 9);
}

fn state_with(change: impl Fn(&mut StateBytes)) -> u64 {
    let mut state = start_router(58, 1_000);
    change(&mut state);
    let mut room = [0u8; 42];
    pd_router_held(&state, (1 << 48) - 1, &mut room) >> 16
}

#[test]
fn a_state_without_anything() {
    assert_eq!(state_with(|_| {}), 0);
    let go = |at: usize, value: u8| state_with(|state| state[at] = value);
    assert_eq!(go(36, 64), 0);
    assert_eq!(go(36, 65), 9);
    assert_eq!(go(41, 9), 9);
    assert_eq!(go(41, 11), 0);
    assert_eq!(go(41, 2), 9);
    assert_eq!(go(41, 131), 9);
    assert_eq!(go(32, 1), 9, "a number of 2^24");
    assert_eq!(go(33, 255), 0);
    assert_eq!(go(172, 3), 0, "a server's DUID of three zeros");
    assert_eq!(go(172, 2), 9);
    assert_eq!(go(172, 131), 9);
    assert_eq!(go(173, 1), 9);
    assert_eq!(go(302, 1), 9);
    assert_eq!(go(303, 1), 9, "held without a server");
    assert_eq!(go(304, 1), 9);
    assert_eq!(go(345, 1), 9);
    assert_eq!(go(346, 1), 0, "an open Solicit");
    assert_eq!(go(346, 3), 9, "an open Request without a server");
    assert_eq!(go(346, 5), 9);
    assert_eq!(go(346, 6), 0, "an open Rebind of ::/0 sends no server");
    assert_eq!(go(346, 8), 9);
    for kind in [2, 4, 7, 9, 255] {
        assert_eq!(go(346, kind), 9);
    }
    assert_eq!(go(347, 1), 9, "nothing open sends nothing");
    assert_eq!(go(363, 1), 9);
    for at in 381..384 {
        assert_eq!(go(at, 1), 9);
    }
    // Times: last, start, began, Release.
    let time = |at: usize, value: u64| state_with(|state| state[at..at + 8].copy_from_slice(&value.to_be_bytes()));
    assert_eq!(time(0, 999), 9, "the others after the last");
    assert_eq!(time(0, (1 << 48) - 1), 0);
    assert_eq!(time(0, 1 << 48), 9);
    for at in [8, 16, 24] {
        assert_eq!(time(at, 1_001), 9);
        assert_eq!(time(at, 0), 0);
    }
}

#[test]
fn a_state_with_a_hold_and_something_sent() {
    let go = |change: &dyn Fn(&mut StateBytes)| {
        state_with(|state| {
            state[172] = 10;
            state[173..183].copy_from_slice(&BOX);
            state[303] = 1;
            state[304..338].copy_from_slice(&delegation(0xaa00, 58, 0xaa3f));
            state[338..346].copy_from_slice(&4_700u64.to_be_bytes());
            state[346] = 5;
            state[347..381].copy_from_slice(&delegation(0xaa00, 58, 0xaa3f));
            change(state);
        })
    };
    let set = |at: usize, value: u8| go(&|state| state[at] = value);
    assert_eq!(go(&|_| {}), 0);
    for base in [304, 347] {
        assert_eq!(set(base + 15, 1), 9, "a bit after its length");
        assert_eq!(set(base + 16, 64), 9, "b = a");
        assert_eq!(set(base + 16, 63), 9, "aa3f::/64 doesn't lie in aa00::/63");
        assert_eq!(set(base + 16, 57), 0);
        assert_eq!(set(base + 16, 129), 9);
        assert_eq!(set(base + 24, 0x40), 9, "aa40::/64 doesn't lie in aa00::/58");
        assert_eq!(set(base + 24, 0x20), 0);
    }
}

#[test]
fn an_excluded_prefix_in_a_state() {
    let go = |change: &dyn Fn(&mut [u8])| {
        state_with(|state| {
            state[172] = 10;
            state[173..183].copy_from_slice(&BOX);
            state[303] = 1;
            state[304..338].copy_from_slice(&delegation(0xaa00, 58, 0xaa3f));
            change(&mut state[304..338]);
        })
    };
    assert_eq!(go(&|_| {}), 0);
    assert_eq!(go(&|d| d[33] = 0), 9, "none, but its prefix isn't zero");
    assert_eq!(go(&|d| d[17..34].fill(0)), 0, "none");
    assert_eq!(go(&|d| d[33] = 58), 9, "b = a");
    assert_eq!(go(&|d| d[33] = 59), 9, "bits after b");
    assert_eq!(go(&|d| d[33] = 65), 0);
    assert_eq!(go(&|d| d[33] = 128), 0);
    assert_eq!(go(&|d| d[33] = 129), 9);
    assert_eq!(go(&|d| d[32] = 1), 9, "a bit after b");
    assert_eq!(go(&|d| d[24] = 0x7f), 9, "not in the delegation");
    assert_eq!(go(&|d| d[17] = 0), 9, "not in the delegation");
    let end = |end: u64| state_with(|state| {
        state[172] = 3;
        state[303] = 1;
        state[338..346].copy_from_slice(&end.to_be_bytes());
    });
    assert_eq!(end((1 << 49) - 1), 0);
    assert_eq!(end(1 << 49), 9);
    assert_eq!(end(u64::MAX - 1), 9);
    assert_eq!(end(u64::MAX), 0);
}
