//! What the router does, rule by rule.
mod common;
use common::*;
use reference::*;

/// A router that knows BOX and holds 2001:db8:0:aa00::/58 without aa3f::/64 until 4,700, nothing open, at 1,200.
fn holder() -> StateBytes {
    let mut state = start_router(58, 1_000);
    state[0..8].copy_from_slice(&1_200u64.to_be_bytes());
    state[16..24].copy_from_slice(&1_100u64.to_be_bytes());
    state[35] = 2;
    state[172] = 10;
    state[173..183].copy_from_slice(&BOX);
    state[303] = 1;
    state[304..338].copy_from_slice(&delegation(0xaa00, 58, 0xaa3f));
    state[338..346].copy_from_slice(&4_700u64.to_be_bytes());
    state
}

fn the_hold(group: u16, length: u8, excluded: u16, end: u64) -> Vec<u8> {
    [delegation(group, length, excluded), end.to_be_bytes().to_vec()].concat()
}

fn reply(kind: u8, number: u32, ia: &[Vec<u8>]) -> Vec<u8> {
    message(kind, number, &[vec![client(&ROUTER), server(&BOX)], ia.to_vec()].concat())
}

/// A router with a Request (number 2) sent at 1,300.
fn requesting() -> StateBytes {
    let mut state = holder();
    send(pd_router_request, &mut state, 1_300);
    state
}

fn soliciting() -> StateBytes {
    let mut state = start_router(0, 0);
    send(pd_router_solicit, &mut state, 100);
    state
}

#[test]
fn what_is_listed() {
    // Wanted 0 leaves the whole IA Prefix out.
    let mut state = start_router(0, 0);
    let text = send(pd_router_solicit, &mut state, 100);
    assert_eq!(text, message(1, 0, &[client(&ROUTER), asks_67(), ia_pd(7, 0, 0, &[])]));
    // A Solicit or a Request never lists the held one.
    let wish = ia_prefix(0, 0, 58, ZERO, &[]);
    let mut state = holder();
    let text = send(pd_router_request, &mut state, 1_300);
    assert_eq!(
        text,
        message(3, 2, &[client(&ROUTER), server(&BOX), asks_67(), ia_pd(7, 0, 0, std::slice::from_ref(&wish))])
    );
    let mut state = holder();
    let text = send(pd_router_solicit, &mut state, 1_300);
    assert_eq!(text, message(1, 2, &[client(&ROUTER), asks_67(), ia_pd(7, 0, 0, &[wish])]));
}

#[test]
fn the_longest_message_has_344_bytes() {
    let mut state = holder();
    // ::/0 without 1::/128 in place of the hold; DUIDs of 130 bytes.
    state[41] = 130;
    state[42..172].fill(0xDD);
    state[172] = 130;
    state[173..303].fill(0xEE);
    state[304..338].fill(0);
    state[321..337].fill(0xA5);
    state[337] = 128;
    let text = send(pd_router_renew, &mut state, 1_300);
    assert_eq!(text.len(), 344);
    let exclude = opt(67, &[&[128u8][..], &[0xA5; 16]].concat());
    let listed = ia_prefix(0, 0, 0, ZERO, &[exclude]);
    let expected =
        message(5, 2, &[client(&[0xDD; 130]), server(&[0xEE; 130]), asks_67(), ia_pd(7, 0, 0, &[listed])]);
    assert_eq!(text, expected);
}

#[test]
fn steps_need_a_server_or_a_hold_whose_end_hasnt_come() {
    let mut fresh = start_router(0, 0);
    for step in [pd_router_request, pd_router_renew, pd_router_rebind, pd_router_release] {
        assert_eq!(send_refused(step, &mut fresh, 100), 13);
        // At 4,699 held, at 4,700 ended.
        let mut state = holder();
        send(step, &mut state, 4_699);
    }
    for step in [pd_router_renew, pd_router_rebind, pd_router_release] {
        let mut state = holder();
        assert_eq!(send_refused(step, &mut state, 4_700), 13);
    }
    // Ended, the hold stays in the state.
    let mut state = holder();
    send(pd_router_solicit, &mut state, 4_700);
    assert_eq!(state[303], 1);
    assert_eq!(state[304..346], the_hold(0xaa00, 58, 0xaa3f, 4_700)[..]);
    assert_eq!(held(&state, 4_700), []);
}

#[test]
fn the_wait_after_a_release_counts_from_its_last_sending() {
    let mut state = holder();
    let text = send(pd_router_release, &mut state, 1_300);
    assert_eq!(send(pd_router_resend, &mut state, 1_350), text);
    assert_eq!(pd_router_abandon(&mut state, 1_351), 0);
    assert_eq!(send_refused(pd_router_solicit, &mut state, 1_410), 12);
    send(pd_router_solicit, &mut state, 1_411);
}

#[test]
fn resending_another_kind_doesnt_wait() {
    let mut state = holder();
    let text = send(pd_router_renew, &mut state, 1_300);
    assert_eq!(send(pd_router_resend, &mut state, 1_350), text);
    assert_eq!(send(pd_router_resend, &mut state, 9_999), text, "at any later time, the hold's end too");
    assert_eq!(state[16..24], 1_300u64.to_be_bytes());
    assert_eq!(pd_router_abandon(&mut state, 9_999), 0);
    send(pd_router_solicit, &mut state, 9_999);
}

#[test]
fn numbers_go_round_after_2_to_the_24() {
    let mut state = holder();
    state[32..36].copy_from_slice(&0x00FF_FFFFu32.to_be_bytes());
    let text = send(pd_router_solicit, &mut state, 1_300);
    assert_eq!(text[..4], [1, 0xFF, 0xFF, 0xFF]);
    assert_eq!(state[32..36], [0, 0, 0, 0]);
    assert_eq!(send(pd_router_resend, &mut state, 1_301), text);
    assert_eq!(pd_router_receive(&mut state, 1_302, &reply(2, 0xFF_FFFF, &[ia_pd(7, 0, 0, &[])])), 0);
    let text = send(pd_router_solicit, &mut state, 1_303);
    assert_eq!(text[..4], [1, 0, 0, 0]);
}

#[test]
fn an_advertise_awaited_and_not() {
    let ia = ia_pd(7, 0, 0, &[]);
    let good = reply(2, 0, std::slice::from_ref(&ia));
    let mut state = soliciting();
    let mut not = |text: Vec<u8>, why: &str| assert_eq!(receive_refused(&mut state, 101, &text), 14, "{why}");
    not(reply(7, 0, std::slice::from_ref(&ia)), "a Reply");
    not(reply(2, 1, std::slice::from_ref(&ia)), "another number");
    not(message(2, 0, &[server(&BOX), ia.clone()]), "no Client ID");
    not(message(2, 0, &[client(&ROUTER), client(&ROUTER), server(&BOX), ia.clone()]), "two");
    not(message(2, 0, &[client(&ROUTER[..9]), server(&BOX), ia.clone()]), "another's");
    not(message(2, 0, &[client(&ROUTER), ia.clone()]), "no Server ID");
    not(message(2, 0, &[client(&ROUTER), server(&BOX), server(&BOX), ia.clone()]), "two");
    not(message(2, 0, &[client(&ROUTER), server(&[1, 2]), ia.clone()]), "of 2 bytes");
    not(reply(2, 0, &[]), "no IA_PD");
    not(reply(2, 0, &[ia.clone(), ia.clone()]), "two");
    not(reply(2, 0, &[ia_pd(8, 0, 0, &[])]), "another IAID");
    not(reply(2, 0, &[ia_pd(7, 2, 1, &[])]), "T1 > T2 > 0");
    not(reply(2, 0, &[ia_pd(7, 0xFFFF_FFFF, 0xFFFF_FFFE, &[])]), "T1 > T2 > 0");
    not(reply(2, 0, &[ia.clone(), status(6, "NoPrefixAvail")]), "in the message");
    not(reply(2, 0, &[ia_pd(7, 0, 0, &[status(6, "")])]), "in the IA_PD");
    let inner = ia_prefix(1, 2, 60, at(0xaa00), &[status(0, ""), status(6, "")]);
    not(reply(2, 0, &[ia_pd(7, 0, 0, &[inner])]), "in the IA Prefix");
    not([good.clone(), vec![0]].concat(), "malformed");
    not(good[..3].to_vec(), "3 bytes");
    // T1 > T2 = 0, T1 = T2, T1 < T2; other statuses; a status 6 where it isn't read.
    for accepted in [
        good,
        reply(2, 0, &[ia_pd(7, 2, 0, &[])]),
        reply(2, 0, &[ia_pd(7, 2, 2, &[])]),
        reply(2, 0, &[ia_pd(7, 1, 2, &[status(3, "NoPrefixAvail")])]),
        reply(2, 0, &[ia_pd(7, 1, 2, &[opt(25, &status(6, ""))])]),
        reply(2, 0, &[ia.clone(), opt(26, &status(6, ""))]),
    ] {
        let mut state = soliciting();
        assert_eq!(pd_router_receive(&mut state, 101, &accepted), 0);
        assert_eq!(state[346], 0);
        assert_eq!(state[172], 10);
    }
}

#[test]
fn an_advertise_overwrites_the_server_and_leaves_the_hold() {
    let mut state = holder();
    send(pd_router_solicit, &mut state, 1_300);
    let other = [9u8, 8, 7];
    let prefix = ia_prefix(100, 200, 60, at(0xbb00), &[]);
    let text = message(2, 2, &[client(&ROUTER), server(&other), ia_pd(7, 0, 0, &[prefix])]);
    assert_eq!(pd_router_receive(&mut state, 1_301, &text), 0);
    assert_eq!(state[172], 3);
    assert_eq!(state[173..176], other);
    assert!(state[176..303].iter().all(|&byte| byte == 0));
    assert_eq!(held(&state, 1_301), the_hold(0xaa00, 58, 0xaa3f, 4_700));
}

#[test]
fn request_renew_and_release_want_the_known_server_and_rebind_any() {
    let ia = ia_pd(7, 0, 0, &[ia_prefix(100, 200, 60, at(0xbb00), &[])]);
    let from_other = message(7, 2, &[client(&ROUTER), server(&[9, 8, 7]), ia.clone()]);
    let from_known = reply(7, 2, &[ia]);
    for step in [pd_router_request, pd_router_renew, pd_router_release] {
        let mut state = holder();
        send(step, &mut state, 1_300);
        assert_eq!(receive_refused(&mut state, 1_301, &from_other), 14);
        assert_eq!(pd_router_receive(&mut state, 1_301, &from_known), 0);
    }
    let mut state = holder();
    send(pd_router_rebind, &mut state, 1_300);
    assert_eq!(pd_router_receive(&mut state, 1_301, &from_other), 0);
    assert_eq!(state[172..176], [3, 9, 8, 7]);
    assert_eq!(held(&state, 1_301), the_hold(0xbb00, 60, 0, 1_500));
}

#[test]
fn the_first_prefix_that_meets_all_three_conditions() {
    let passed_by = [
        ia_prefix(0, 0, 60, at(0xbb00), &[]),
        ia_prefix(201, 200, 60, at(0xbb10), &[]),
        ia_prefix(0xFFFF_FFFF, 0xFFFF_FFFE, 60, at(0xbb10), &[]),
        ia_prefix(100, 200, 60, at(0xbb11), &[]),
        ia_prefix(100, 200, 60, [0x2001, 0xdb8, 0, 0xbb20, 0, 0, 0, 1], &[]),
    ];
    let with = |more: &[Vec<u8>]| reply(7, 2, &[ia_pd(7, 0, 0, &[&passed_by[..], more].concat())]);

    let mut state = requesting();
    assert_eq!(pd_router_receive(&mut state, 1_310, &with(&[])), 0);
    assert_eq!(held(&state, 1_310), [], "none: it holds nothing");
    assert!(state[303..346].iter().all(|&byte| byte == 0));

    let taken = ia_prefix(200, 200, 58, at(0xbb40), &[status(6, ""), hex("0043 0002 40 04")]);
    let later = ia_prefix(100, 9_000, 60, at(0xcc00), &[]);
    let mut state = requesting();
    assert_eq!(pd_router_receive(&mut state, 1_310, &with(&[taken.clone(), later.clone()])), 0);
    // Subnet bits 000001 of 58 to 63: bb41.
    assert_eq!(held(&state, 1_310), the_hold(0xbb40, 58, 0xbb41, 1_500));

    // Its end isn't after now: nothing, and no later one is tried.
    let mut state = requesting();
    assert_eq!(pd_router_receive(&mut state, 1_499, &with(&[taken.clone(), later.clone()])), 0);
    assert_eq!(held(&state, 1_499), the_hold(0xbb40, 58, 0xbb41, 1_500));
    let mut state = requesting();
    assert_eq!(pd_router_receive(&mut state, 1_500, &with(&[taken, later])), 0);
    assert_eq!(held(&state, 1_500), []);
    assert!(state[303..346].iter().all(|&byte| byte == 0), "nothing stands in the state either");

    // For ever.
    let mut state = requesting();
    let ever = ia_prefix(0xFFFF_FFFF, 0xFFFF_FFFF, 128, at(0xbb40), &[]);
    assert_eq!(pd_router_receive(&mut state, 1_310, &with(&[ever])), 0);
    assert_eq!(held(&state, 1_310), the_hold(0xbb40, 128, 0, u64::MAX));
    assert_eq!(held(&state, (1 << 48) - 1), the_hold(0xbb40, 128, 0, u64::MAX));
}

#[test]
fn the_end_counts_from_the_first_sending_resent_or_not() {
    let mut state = requesting();
    send(pd_router_resend, &mut state, 1_390);
    let text = reply(7, 2, &[ia_pd(7, 0, 0, &[ia_prefix(100, 200, 60, at(0xbb00), &[])])]);
    assert_eq!(pd_router_receive(&mut state, 1_395, &text), 0);
    assert_eq!(held(&state, 1_395), the_hold(0xbb00, 60, 0, 1_500));
}

#[test]
fn no_binding_leaves_nothing_held() {
    let mut state = holder();
    send(pd_router_renew, &mut state, 1_300);
    let text = reply(7, 2, &[ia_pd(7, 0, 0, &[status(3, "NoBinding")])]);
    assert_eq!(pd_router_receive(&mut state, 1_301, &text), 0);
    assert_eq!(held(&state, 1_301), []);
    assert_eq!(state[172], 10, "the server stays known");
}

#[test]
fn a_reply_to_a_release_needs_no_ia_pd() {
    for ia in [
        vec![],
        vec![status(0, "Success")],
        vec![ia_pd(1, 5, 2, &[]), ia_pd(2, 0, 0, &[])],
        vec![status(6, ""), ia_pd(7, 0, 0, &[ia_prefix(100, 200, 60, at(0xbb00), &[])])],
    ] {
        let mut state = holder();
        send(pd_router_release, &mut state, 1_300);
        assert_eq!(pd_router_receive(&mut state, 1_301, &reply(7, 2, &ia)), 0);
        assert_eq!(state[346], 0);
        assert_eq!(held(&state, 1_301), []);
    }
    let mut state = holder();
    send(pd_router_release, &mut state, 1_300);
    assert_eq!(receive_refused(&mut state, 1_301, &reply(7, 2, &[opt(25, &[0; 11])])), 14, "must be well formed");
}

#[test]
fn each_of_the_three_waits_on_its_own() {
    // Start, began and last Release in orders that no life has: 12 tests each alone.
    let with = |start: u64, began: u64, released: u64| {
        let mut state = start_router(0, 1_000);
        state[8..16].copy_from_slice(&start.to_be_bytes());
        state[16..24].copy_from_slice(&began.to_be_bytes());
        state[24..32].copy_from_slice(&released.to_be_bytes());
        state
    };
    assert_eq!(send_refused(pd_router_solicit, &mut with(1_000, 5, 7), 1_060), 12);
    send(pd_router_solicit, &mut with(1_000, 5, 7), 1_061);
    assert_eq!(send_refused(pd_router_solicit, &mut with(5, 7, 1_000), 1_060), 12);
    send(pd_router_solicit, &mut with(5, 7, 1_000), 1_061);
    assert_eq!(send_refused(pd_router_solicit, &mut with(5, 1_000, 7), 1_000), 12);
    send(pd_router_solicit, &mut with(5, 1_000, 7), 1_001);
}

#[test]
fn sound_but_unreachable_states() {
    // An open Release beside a hold: resend sends what is kept as sent, a Reply leaves the hold alone.
    let mut state = holder();
    state[346] = 8;
    state[347..381].copy_from_slice(&delegation(0xcc00, 56, 0));
    let listed = ia_prefix(0, 0, 56, at(0xcc00), &[]);
    let text = send(pd_router_resend, &mut state, 1_300);
    assert_eq!(text, message(8, 1, &[client(&ROUTER), server(&BOX), ia_pd(7, 0, 0, &[listed])]));
    assert_eq!(pd_router_receive(&mut state, 1_301, &reply(7, 1, &[])), 0);
    assert_eq!(held(&state, 1_301), the_hold(0xaa00, 58, 0xaa3f, 4_700));
    // A fresh number with something open: the open one has the last number of all.
    let mut state = holder();
    state[35] = 0;
    state[346] = 1;
    let text = send(pd_router_resend, &mut state, 1_300);
    assert_eq!(text[..4], [1, 0xFF, 0xFF, 0xFF]);
    // A Rebind sends no server, so it may be open where none is known.
    let mut state = start_router(0, 0);
    state[346] = 6;
    state[347..381].copy_from_slice(&delegation(0xcc00, 56, 0));
    send(pd_router_resend, &mut state, 1);
}

#[test]
fn forty_ia_prefixes_at_the_router() {
    // 4 + 14 + 14 + 16 + 40 * 29 = 1,208 bytes; the last one is taken.
    let mut listed = vec![ia_prefix(0, 0, 60, at(0xbb00), &[]); 39];
    listed.push(ia_prefix(5, 300, 60, at(0xcc00), &[]));
    let text = reply(7, 2, &[ia_pd(7, 0, 0, &listed)]);
    assert_eq!(text.len(), 1_208);
    let mut state = requesting();
    assert_eq!(pd_router_receive(&mut state, 1_301, &text), 0);
    assert_eq!(held(&state, 1_301), the_hold(0xcc00, 60, 0, 1_600));
}

#[test]
fn a_prefix_of_length_0_is_taken_like_any_other() {
    let text = reply(7, 2, &[ia_pd(7, 0, 0, &[ia_prefix(5, 300, 0, ZERO, &[])])]);
    let mut state = requesting();
    assert_eq!(pd_router_receive(&mut state, 1_301, &text), 0);
    let mut expected = vec![0; 34];
    expected.extend_from_slice(&1_600u64.to_be_bytes());
    assert_eq!(held(&state, 1_301), expected);
    let text = send(pd_router_renew, &mut state, 1_302);
    assert_eq!(text[text.len() - 29..], ia_prefix(0, 0, 0, ZERO, &[])[..]);
}

#[test]
fn restarted_it_holds_nothing_and_knows_no_server() {
    let mut state = holder();
    assert_eq!(pd_router_start(&mut state, &ROUTER, 7, 58, 5_000), 0);
    assert_eq!(state, start_router(58, 5_000));
    // A start gives no 9, and its time counts as the last accepted one.
    let mut rubbish = [0xEEu8; STATE_BYTES];
    assert_eq!(pd_router_start(&mut rubbish, &ROUTER, 7, 58, 3), 0);
    assert_eq!(rubbish, start_router(58, 3));
}
