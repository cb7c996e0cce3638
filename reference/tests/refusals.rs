//! Every refusal number, and the order: where two apply at once, the first in the order is given.
mod common;
use common::*;
use reference::*;

#[test]
fn the_box_in_order_9_1_2_3_4_5_6_7_8() {
    // Everything is wrong at first; then one fault after the other goes.
    let mut unsound = start_box(0, 100);
    unsound[161] = 1;
    let mut sound = start_box(0, 100);
    // 1,233 bytes of type 9: malformed, no Client ID, no IA_PD.
    let mut long = message(9, 0, &[opt(6, &[0]), opt(17, &vec![0; 1_220])]);
    long.resize(1_233, 0);
    let unserved = message(9, 0, &[opt(6, &[0])]);
    let malformed = message(6, 0, &[opt(6, &[0])]);
    let no_identity = message(6, 0, &[]);
    let no_ia_pd = message(6, 0, &[client(&who(1))]);
    let silent = message(6, 0, &[client(&who(1)), ia_pd(9, 0, 0, &[])]);
    let outside = ia_prefix(0, 0, 48, [0x2001, 0xdb8, 9, 0, 0, 0, 0, 0], &[]);
    let answered = message(6, 0, &[client(&who(1)), ia_pd(9, 0, 0, &[outside])]);

    let mut room = [0x5Au8; 512];
    let before = sound.clone();
    let unsound_before = unsound.clone();
    assert_eq!(pd_box_handle(&mut unsound, 99, &long, &mut room[..511]), 9 * 65_536);
    assert_eq!(pd_box_handle(&mut sound, 99, &long, &mut room[..511]), 65_536);
    assert_eq!(pd_box_handle(&mut sound, 1 << 48, &long, &mut room[..511]), 65_536);
    assert_eq!(pd_box_handle(&mut sound, 100, &long, &mut room[..511]), 2 * 65_536);
    assert_eq!(pd_box_handle(&mut sound, 100, &long, &mut room), 3 * 65_536);
    assert_eq!(pd_box_handle(&mut sound, 100, &unserved, &mut room), 4 * 65_536);
    assert_eq!(pd_box_handle(&mut sound, 100, &malformed, &mut room), 5 * 65_536);
    assert_eq!(pd_box_handle(&mut sound, 100, &no_identity, &mut room), 6 * 65_536);
    assert_eq!(pd_box_handle(&mut sound, 100, &no_ia_pd, &mut room), 7 * 65_536);
    assert_eq!(pd_box_handle(&mut sound, 100, &silent, &mut room), 8 * 65_536);
    assert!(before == sound && unsound_before == unsound);
    assert!(room.iter().all(|&byte| byte == 0x5A));
    assert!(pd_box_handle(&mut sound, 100, &answered, &mut room) < 65_536);
}

#[test]
fn refusal_4_for_every_other_type() {
    let mut table = start_box(0, 0);
    for kind in 0..=255u8 {
        let text = message(kind, 0, &[]);
        let expected = if [1, 3, 5, 6, 8].contains(&kind) { 6 } else { 4 };
        assert_eq!(refusal(&mut table, 1, &text), expected, "type {kind}");
    }
}

#[test]
fn refusal_6_by_the_rows() {
    let mut table = start_box(0, 0);
    let ia = ia_pd(9, 0, 0, &[]);
    let c = client(&who(1));
    let s = server(&BOX);
    let mut other = BOX;
    other[9] ^= 1;
    let longer = [&BOX[..], &[0]].concat();
    for kind in [1, 6] {
        assert_eq!(refusal(&mut table, 1, &message(kind, 0, &[c.clone(), s.clone(), ia.clone()])), 6);
        assert_eq!(refusal(&mut table, 1, &message(kind, 0, &[c.clone(), server(&[]), ia.clone()])), 6);
        assert_eq!(refusal(&mut table, 1, &message(kind, 0, &[ia.clone()])), 6);
        assert_eq!(refusal(&mut table, 1, &message(kind, 0, &[c.clone(), c.clone(), ia.clone()])), 6);
    }
    for kind in [3, 5, 8] {
        assert_eq!(refusal(&mut table, 1, &message(kind, 0, &[c.clone(), ia.clone()])), 6);
        assert_eq!(refusal(&mut table, 1, &message(kind, 0, &[s.clone(), ia.clone()])), 6);
        assert_eq!(refusal(&mut table, 1, &message(kind, 0, &[c.clone(), s.clone(), s.clone(), ia.clone()])), 6);
        assert_eq!(refusal(&mut table, 1, &message(kind, 0, &[c.clone(), c.clone(), s.clone(), ia.clone()])), 6);
        assert_eq!(refusal(&mut table, 1, &message(kind, 0, &[c.clone(), server(&other), ia.clone()])), 6);
        assert_eq!(refusal(&mut table, 1, &message(kind, 0, &[c.clone(), server(&longer), ia.clone()])), 6);
        assert_eq!(refusal(&mut table, 1, &message(kind, 0, &[c.clone(), server(&BOX[..9]), ia.clone()])), 6);
        handle(&mut table, 1, &message(kind, 0, &[ia.clone(), s.clone(), c.clone()]));
    }
}

#[test]
fn refusal_7_by_counts() {
    let mut table = start_box(0, 0);
    let listed = |n: usize| vec![ia_prefix(0, 0, 60, ZERO, &[]); n];
    assert_eq!(refusal(&mut table, 1, &message(1, 0, &[client(&who(1))])), 7);
    assert_eq!(refusal(&mut table, 1, &solicit(1, &listed(5))), 7);
    let two = message(1, 0, &[client(&who(1)), ia_pd(9, 0, 0, &[]), ia_pd(10, 0, 0, &[])]);
    assert_eq!(refusal(&mut table, 1, &two), 7);
    handle(&mut table, 1, &solicit(1, &listed(4)));
    // A fifth one that isn't read where it stands doesn't count.
    let nested = [listed(3), vec![ia_prefix(0, 0, 60, ZERO, &listed(1))]].concat();
    handle(&mut table, 1, &solicit(1, &nested));
    handle(&mut table, 1, &message(1, 0, &[client(&who(1)), ia_pd(9, 0, 0, &listed(4)), listed(1).concat()]));
}

#[test]
fn refusal_5_in_a_second_ia_pd_and_a_fifth_ia_prefix() {
    let mut table = start_box(0, 0);
    let bad = ia_prefix(0, 0, 129, ZERO, &[]);
    let two = message(1, 0, &[client(&who(1)), ia_pd(9, 0, 0, &[]), ia_pd(10, 0, 0, std::slice::from_ref(&bad))]);
    assert_eq!(refusal(&mut table, 1, &two), 5);
    let mut listed = vec![ia_prefix(0, 0, 60, ZERO, &[]); 4];
    listed.push(bad);
    assert_eq!(refusal(&mut table, 1, &solicit(1, &listed)), 5);
}

#[test]
fn refusal_8_writes_neither_clock_nor_ended_records() {
    let mut table = start_box(0, 0);
    put_records(&mut table, &[record_bytes(&who(1), 9, 0xaa00, 60, 0, 1_000)]);
    let rebind = message(6, 0, &[client(&who(1)), ia_pd(9, 0, 0, &[ia_prefix(0, 0, 60, at(0xaa00), &[])])]);
    assert_eq!(refusal(&mut table, 1_000, &rebind), 8);
    assert_eq!(table[0..8], [0; 8]);
    assert_eq!(pd_box_live(&table, 999), 1);
}

#[test]
fn live_and_record_and_held() {
    let mut unsound = start_box(0, 100);
    unsound[39_343] = 1;
    let sound = start_box(0, 100);
    let mut room = [0x5Au8; 153];
    assert_eq!(pd_box_live(&unsound, 99), 9 * 65_536);
    assert_eq!(pd_box_live(&sound, 99), 65_536);
    assert_eq!(pd_box_record(&unsound, 0, &mut room[..152]), 9 * 65_536);
    assert_eq!(pd_box_record(&sound, 0, &mut room[..152]), 2 * 65_536);

    let mut unsound = start_router(0, 100);
    unsound[383] = 1;
    let sound = start_router(0, 100);
    assert_eq!(pd_router_held(&unsound, 99, &mut room[..41]), 9 * 65_536);
    assert_eq!(pd_router_held(&sound, 99, &mut room[..41]), 65_536);
    assert_eq!(pd_router_held(&sound, 100, &mut room[..41]), 2 * 65_536);
    assert!(room.iter().all(|&byte| byte == 0x5A));
}

#[test]
fn starts_give_10_before_1() {
    let mut table = [0xEEu8; TABLE_BYTES];
    let mut go = |high: u64, low: u64, p: u8, s: u8, d: u8, preferred: u32, valid: u32, exclusion: u8, now: u64| {
        let word = pd_box_start(&mut table, high, low, p, s, d, preferred, valid, exclusion, &BOX, now);
        if word != 0 {
            assert!(table.iter().all(|&byte| byte == 0xEE));
        }
        table.fill(0xEE);
        word / 65_536
    };
    const POOL: u64 = 0x2001_0db8_0000_aa00;
    const LATE: u64 = 1 << 48;
    assert_eq!(go(POOL, 0, 56, 56, 60, 120, 120, 0, 5), 0);
    assert_eq!(go(POOL, 0, 56, 56, 60, 120, 120, 0, LATE), 1);
    assert_eq!(go(POOL, 0, 57, 57, 60, 120, 120, 0, LATE), 10);
    assert_eq!(go(0x2001_0db8 << 32, 0, 31, 56, 60, 120, 120, 0, 5), 10);
    assert_eq!(go(0x2001_0db8 << 32, 0, 32, 32, 32, 120, 120, 0, 5), 0);
    assert_eq!(go(0x2001_0db9 << 32, 0, 31, 56, 60, 120, 120, 0, 5), 10);
    assert_eq!(go(POOL, 0, 57, 57, 60, 120, 120, 0, 5), 10);
    assert_eq!(go(POOL, 0, 54, 56, 60, 120, 120, 0, 5), 10, "a bit after P");
    assert_eq!(go(POOL, 1, 56, 56, 60, 120, 120, 0, 5), 10, "a bit after P");
    assert_eq!(go(POOL, 0, 56, 55, 60, 120, 120, 0, 5), 10, "S < P");
    assert_eq!(go(POOL, 0, 56, 60, 59, 120, 120, 0, 5), 10, "D < S");
    assert_eq!(go(POOL, 0, 56, 56, 61, 120, 120, 0, 5), 10, "D > 60");
    assert_eq!(go(POOL, 0, 56, 60, 60, 120, 120, 0, 5), 0);
    assert_eq!(go(POOL, 0, 56, 56, 60, 119, 120, 0, 5), 10);
    assert_eq!(go(POOL, 0, 56, 56, 60, 121, 120, 0, 5), 10);
    assert_eq!(go(POOL, 0, 56, 56, 60, 0xFFFF_FFFF, 0xFFFF_FFFE, 0, 5), 10);
    assert_eq!(go(POOL, 0, 56, 56, 60, 0xFFFF_FFFE, 0xFFFF_FFFF, 1, 5), 0);
    assert_eq!(go(POOL, 0, 56, 56, 60, 120, 120, 2, 5), 10);
    assert_eq!(go(0, 0, 56, 56, 60, 120, 120, 1, 5), 0, "a pool of zeros");

    let mut state = [0xEEu8; STATE_BYTES];
    assert_eq!(pd_router_start(&mut state, &ROUTER, 7, 65, LATE), 10 * 65_536);
    assert_eq!(pd_router_start(&mut state, &ROUTER[..2], 7, 64, LATE), 10 * 65_536);
    assert_eq!(pd_router_start(&mut state, &ROUTER, 7, 64, LATE), 65_536);
    assert!(state.iter().all(|&byte| byte == 0xEE));
    assert_eq!(pd_router_start(&mut state, &ROUTER, 7, 64, LATE - 1), 0);
}

#[test]
fn the_router_sending_in_order_9_1_2_11_12_13() {
    let steps: [fn(&mut StateBytes, u64, &mut [u8]) -> u64; 5] =
        [pd_router_solicit, pd_router_request, pd_router_renew, pd_router_rebind, pd_router_release];
    for (i, step) in steps.into_iter().enumerate() {
        let mut room = [0x5Au8; 512];
        // Open, too soon (began at 200), no server.
        let mut open = start_router(0, 100);
        send(pd_router_solicit, &mut open, 200);
        let mut unsound = open;
        unsound[382] = 1;
        let mut closed = open;
        assert_eq!(pd_router_abandon(&mut closed, 200), 0);

        let before = (open, unsound, closed);
        assert_eq!(step(&mut unsound, 199, &mut room[..511]), 9 * 65_536);
        assert_eq!(step(&mut open, 199, &mut room[..511]), 65_536);
        assert_eq!(step(&mut open, 1 << 48, &mut room[..511]), 65_536);
        assert_eq!(step(&mut open, 200, &mut room[..511]), 2 * 65_536);
        assert_eq!(step(&mut open, 200, &mut room), 11 * 65_536);
        assert_eq!(step(&mut closed, 200, &mut room), 12 * 65_536);
        if i > 0 {
            assert_eq!(step(&mut closed, 201, &mut room), 13 * 65_536);
        }
        assert!(before == (open, unsound, closed));
        assert!(room.iter().all(|&byte| byte == 0x5A));
        if i == 0 {
            assert!(step(&mut closed, 201, &mut room) < 65_536);
        }
    }
}

#[test]
fn resending_9_1_2_13_and_abandoning_9_1_13() {
    let mut room = [0x5Au8; 512];
    let mut fresh = start_router(0, 100);
    let mut unsound = fresh;
    unsound[382] = 1;
    assert_eq!(pd_router_resend(&mut unsound, 99, &mut room[..511]), 9 * 65_536);
    assert_eq!(pd_router_resend(&mut fresh, 99, &mut room[..511]), 65_536);
    assert_eq!(pd_router_resend(&mut fresh, 100, &mut room[..511]), 2 * 65_536);
    assert_eq!(pd_router_resend(&mut fresh, 100, &mut room), 13 * 65_536);
    assert_eq!(pd_router_abandon(&mut unsound, 99), 9 * 65_536);
    assert_eq!(pd_router_abandon(&mut fresh, 99), 65_536);
    assert_eq!(pd_router_abandon(&mut fresh, 100), 13 * 65_536);
    assert_eq!(fresh, start_router(0, 100));
    assert!(room.iter().all(|&byte| byte == 0x5A));
}

#[test]
fn receiving_9_1_14() {
    let mut fresh = start_router(0, 100);
    let mut unsound = fresh;
    unsound[382] = 1;
    assert_eq!(receive_refused(&mut unsound, 99, &[]), 9);
    assert_eq!(receive_refused(&mut fresh, 99, &[]), 1);
    assert_eq!(receive_refused(&mut fresh, 1 << 48, &[]), 1);
    assert_eq!(receive_refused(&mut fresh, 100, &[]), 14);
}
