//! "To be run": ends, waits, DUIDs and sizes at their edges.
mod common;
use common::*;
use reference::*;

/// A table whose one record ends at 1,000.
fn ends_at_1000() -> Box<TableBytes> {
    let mut table = start_box(0, 10);
    put_records(&mut table, &[record_bytes(&who(1), 9, 0xaa00, 60, 0, 1_000)]);
    table
}

#[test]
fn an_end_of_1000_is_live_at_999_and_dropped_at_1000() {
    let table = ends_at_1000();
    assert_eq!(pd_box_live(&table, 999), 1);
    assert_eq!(pd_box_live(&table, 1_000), 0);
    assert_eq!(record(&table, 0).len(), 153, "shown, ended or not");

    // Another's Solicit at 999: the record stays, and its place is taken.
    let mut table = ends_at_1000();
    let got = handle(&mut table, 999, &solicit(2, &[]));
    assert_eq!(got, answer(2, 2, 900, 1_440, &[ia_prefix(1_800, 3_600, 60, at(0xaa10), &[])]));
    assert_eq!(record(&table, 0), record_bytes(&who(1), 9, 0xaa00, 60, 0, 1_000));

    // At 1,000: dropped, the room past the last is zero, its place is free.
    let mut table = ends_at_1000();
    let got = handle(&mut table, 1_000, &solicit(2, &[]));
    assert_eq!(got, answer(2, 2, 900, 1_440, &[ia_prefix(1_800, 3_600, 60, at(0xaa00), &[])]));
    assert_eq!(table[0..8], 1_000u64.to_be_bytes());
    assert_eq!(table[8..10], [0, 0]);
    assert!(table[176..].iter().all(|&byte| byte == 0));

    // Its own Renew: a binding at 999, none at 1,000.
    let renew = message(5, 0x123456, &[client(&who(1)), server(&BOX), ia_pd(9, 0, 0, &[])]);
    let mut table = ends_at_1000();
    let got = handle(&mut table, 999, &renew);
    assert_eq!(got, answer(7, 1, 900, 1_440, &[ia_prefix(1_800, 3_600, 60, at(0xaa00), &[])]));
    assert_eq!(record(&table, 0), record_bytes(&who(1), 9, 0xaa00, 60, 0, 4_599));
    let mut table = ends_at_1000();
    assert_eq!(handle(&mut table, 1_000, &renew), answer(7, 1, 0, 0, &[status(3, "NoBinding")]));
    assert_eq!(record(&table, 0), []);
}

#[test]
fn a_first_exchange_is_refused_60_seconds_after_start_and_allowed_at_61() {
    let mut state = start_router(0, 1_000);
    for now in [1_000, 1_001, 1_059, 1_060] {
        assert_eq!(send_refused(pd_router_solicit, &mut state, now), 12);
    }
    send(pd_router_solicit, &mut state, 1_061);
}

#[test]
fn no_two_exchanges_begin_in_one_second() {
    let mut state = start_router(0, 0);
    send(pd_router_solicit, &mut state, 100);
    assert_eq!(pd_router_abandon(&mut state, 100), 0);
    assert_eq!(send_refused(pd_router_solicit, &mut state, 100), 12);
    let text = send(pd_router_solicit, &mut state, 101);
    assert_eq!(text[..4], [1, 0, 0, 1]);
}

#[test]
fn duids_of_2_3_130_and_131_bytes_at_the_starts() {
    for (length, good) in [(0, false), (2, false), (3, true), (130, true), (131, false)] {
        let duid = vec![0xAB; length];
        let word = if good { 0 } else { 10 * 65_536 };
        let mut table = [0xEEu8; TABLE_BYTES];
        let mut state = [0xEEu8; STATE_BYTES];
        let got = pd_box_start(&mut table, 0x2001_0db8_0000_aa00, 0, 56, 56, 60, 120, 120, 1, &duid, 5);
        assert_eq!(got, word, "box, {length} bytes");
        assert_eq!(pd_router_start(&mut state, &duid, 7, 0, 5), word, "router, {length} bytes");
        if good {
            assert_eq!(table[30] as usize, length);
            assert_eq!(table[31..31 + length], duid);
            assert!(table[31 + length..].iter().all(|&byte| byte == 0));
            assert_eq!(state[41] as usize, length);
            assert_eq!(state[42..42 + length], duid);
            assert!(state[42 + length..].iter().all(|&byte| byte == 0));
        } else {
            assert!(table.iter().all(|&byte| byte == 0xEE));
            assert!(state.iter().all(|&byte| byte == 0xEE));
        }
    }
}

#[test]
fn duids_of_2_3_130_and_131_bytes_in_messages() {
    for (length, good) in [(0usize, false), (2, false), (3, true), (130, true), (131, false)] {
        let duid = vec![0xAB; length];
        // A Client ID at the box.
        let mut table = start_box(0, 0);
        let text = message(1, 5, &[client(&duid), ia_pd(9, 0, 0, &[])]);
        if good {
            let offered = ia_prefix(1_800, 3_600, 60, at(0xaa00), &[]);
            let expected = message(2, 5, &[client(&duid), server(&BOX), ia_pd(9, 900, 1_440, &[offered])]);
            assert_eq!(handle(&mut table, 1, &text), expected);
        } else {
            assert_eq!(refusal(&mut table, 1, &text), 6, "{length} bytes");
        }
        // A Server ID at the router.
        let mut state = start_router(0, 0);
        send(pd_router_solicit, &mut state, 100);
        let text = message(2, 0, &[client(&ROUTER), server(&duid), ia_pd(7, 0, 0, &[])]);
        if good {
            assert_eq!(pd_router_receive(&mut state, 100, &text), 0);
            assert_eq!(state[172] as usize, length);
            assert_eq!(state[173..173 + length], duid);
        } else {
            assert_eq!(receive_refused(&mut state, 100, &text), 14, "{length} bytes");
        }
    }
}

/// A Solicit of exactly this many bytes.
fn solicit_of(bytes: usize) -> Vec<u8> {
    let mut text = solicit(1, &[]);
    let fill = bytes - text.len() - 4;
    text.extend(opt(17, &vec![0xFF; fill]));
    assert_eq!(text.len(), bytes);
    text
}

#[test]
fn messages_of_1232_and_1233_bytes() {
    let mut table = start_box(0, 0);
    handle(&mut table, 1, &solicit_of(1_232));
    assert_eq!(refusal(&mut table, 1, &solicit_of(1_233)), 3);

    let reply = |bytes: usize| {
        let mut text = message(2, 0, &[client(&ROUTER), server(&BOX), ia_pd(7, 0, 0, &[])]);
        let fill = bytes - text.len() - 4;
        text.extend(opt(17, &vec![0xFF; fill]));
        text
    };
    let mut state = start_router(0, 0);
    send(pd_router_solicit, &mut state, 100);
    assert_eq!(receive_refused(&mut state, 100, &reply(1_233)), 14);
    assert_eq!(pd_router_receive(&mut state, 100, &reply(1_232)), 0);
}

#[test]
fn messages_of_0_to_4_bytes() {
    let mut table = start_box(0, 0);
    for length in 0..4 {
        assert_eq!(refusal(&mut table, 1, &vec![1u8; length]), 3);
    }
    assert_eq!(refusal(&mut table, 1, &[1, 0, 0, 0]), 6);
    assert_eq!(refusal(&mut table, 1, &[4, 0, 0, 0]), 4);
}

#[test]
fn the_clock_at_2_to_the_48() {
    const LIMIT: u64 = 1 << 48;
    let mut table = start_box_with(56, 56, 60, 120, 0xFFFF_FFFE, 0, LIMIT - 1);
    assert_eq!(pd_box_live(&table, LIMIT - 1), 0);
    assert_eq!(pd_box_live(&table, LIMIT), 65_536);
    assert_eq!(refusal(&mut table, LIMIT, &request(1, &[])), 1);
    handle(&mut table, LIMIT - 1, &request(1, &[]));
    assert_eq!(record(&table, 0), record_bytes(&who(1), 9, 0xaa00, 60, 0, LIMIT - 1 + 0xFFFF_FFFE));

    let mut table = [0xEEu8; TABLE_BYTES];
    let got = pd_box_start(&mut table, 0x2001_0db8_0000_aa00, 0, 56, 56, 60, 120, 120, 1, &BOX, LIMIT);
    assert_eq!(got, 65_536);
    let mut state = [0xEEu8; STATE_BYTES];
    assert_eq!(pd_router_start(&mut state, &ROUTER, 7, 0, LIMIT), 65_536);
    assert!(state.iter().all(|&byte| byte == 0xEE));
    assert!(table.iter().all(|&byte| byte == 0xEE));
    assert_eq!(pd_router_start(&mut state, &ROUTER, 7, 0, LIMIT - 1), 0);
}

#[test]
fn lifetimes_for_ever_end_never() {
    let mut table = start_box_with(56, 56, 60, 0xFFFF_FFFF, 0xFFFF_FFFF, 0, 0);
    handle(&mut table, 1, &request(1, &[]));
    assert_eq!(record(&table, 0), record_bytes(&who(1), 9, 0xaa00, 60, 0, u64::MAX));
    assert_eq!(pd_box_live(&table, (1 << 48) - 1), 1);
}

#[test]
fn rooms_of_511_and_512_of_152_and_153_of_41_and_42() {
    let mut table = start_box(0, 0);
    let mut room = [0u8; 512];
    assert_eq!(pd_box_handle(&mut table, 1, &solicit(1, &[]), &mut room[..511]), 2 * 65_536);
    assert!(pd_box_handle(&mut table, 1, &solicit(1, &[]), &mut room) < 65_536);
    assert_eq!(pd_box_record(&table, 0, &mut room[..152]), 2 * 65_536);
    assert_eq!(pd_box_record(&table, 0, &mut room[..153]), 0);
    assert_eq!(pd_box_record(&table, u64::MAX, &mut room[..153]), 0);
    let state = start_router(0, 0);
    assert_eq!(pd_router_held(&state, 1, &mut room[..41]), 2 * 65_536);
    assert_eq!(pd_router_held(&state, 1, &mut room[..42]), 0);
}
