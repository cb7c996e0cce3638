//! A whole life of a router against the box, every byte written out.
mod common;
use common::*;
use reference::*;

const C: &str = "0001 000a 00030001 0a0b0c0d0e0f";
const S: &str = "0002 000a 00030001 112233445566";
const O: &str = "0006 0002 0043";
const AA00: &str = "20010db8 0000aa00 00000000 00000000";
const AA3F: &str = "20010db8 0000aa3f 00000000 00000000";

/// Wanted 58 at the zero prefix.
const WISH: &str = "0019 0029 00000007 00000000 00000000 001a 0019 00000000 00000000 3a 00000000 00000000 00000000 00000000";

/// What the box grants: T1 900, T2 1,440, 1,800, 3,600, aa00::/58 without aa3f::/64 (six bits of one, two of pad).
fn granted() -> String {
    format!("0019 002f 00000007 00000384 000005a0 001a 001f 00000708 00000e10 3a {AA00} 0043 0002 40 fc")
}

/// What the router lists of its own.
fn listed() -> String {
    format!("0019 002f 00000007 00000000 00000000 001a 001f 00000000 00000000 3a {AA00} 0043 0002 40 fc")
}

fn the_record(end: u64) -> Vec<u8> {
    record_bytes(&ROUTER, 7, 0xaa00, 58, 1, end)
}

fn the_hold(end: u64) -> Vec<u8> {
    [hex(&format!("{AA00} 3a {AA3F} 40")), end.to_be_bytes().to_vec()].concat()
}

#[test]
fn solicit_request_renew_rebind_release() {
    let mut table = start_box(1, 0);
    let mut state = start_router(58, 1_000);

    // Solicit, Advertise.
    let text = send(pd_router_solicit, &mut state, 1_061);
    assert_eq!(text, hex(&format!("01 000000 {C} {O} {WISH}")));
    let reply = handle(&mut table, 1_061, &text);
    assert_eq!(reply, hex(&format!("02 000000 {C} {S} {}", granted())));
    assert_eq!(record(&table, 0), [], "a Solicit stores nothing");
    assert_eq!(pd_router_receive(&mut state, 1_062, &reply), 0);
    assert_eq!(held(&state, 1_062), [], "an Advertise takes no prefix");

    // Request, Reply.
    let text = send(pd_router_request, &mut state, 1_063);
    assert_eq!(text, hex(&format!("03 000001 {C} {S} {O} {WISH}")));
    let reply = handle(&mut table, 1_064, &text);
    assert_eq!(reply, hex(&format!("07 000001 {C} {S} {}", granted())));
    assert_eq!(record(&table, 0), the_record(4_664));
    assert_eq!(pd_router_receive(&mut state, 1_070, &reply), 0);
    // From the first sending, not from the arrival.
    assert_eq!(held(&state, 1_070), the_hold(4_663));
    assert_eq!(held(&state, 4_662), the_hold(4_663));
    assert_eq!(held(&state, 4_663), []);

    // Renew, Reply.
    let text = send(pd_router_renew, &mut state, 2_863);
    assert_eq!(text, hex(&format!("05 000002 {C} {S} {O} {}", listed())));
    let reply = handle(&mut table, 2_864, &text);
    assert_eq!(reply, hex(&format!("07 000002 {C} {S} {}", granted())));
    assert_eq!(record(&table, 0), the_record(6_464));
    assert_eq!(pd_router_receive(&mut state, 2_865, &reply), 0);
    assert_eq!(held(&state, 2_865), the_hold(6_463));

    // Rebind, resent once, Reply.
    let text = send(pd_router_rebind, &mut state, 5_000);
    assert_eq!(text, hex(&format!("06 000003 {C} {O} {}", listed())));
    assert_eq!(send(pd_router_resend, &mut state, 5_010), text);
    let reply = handle(&mut table, 5_011, &text);
    assert_eq!(reply, hex(&format!("07 000003 {C} {S} {}", granted())));
    assert_eq!(record(&table, 0), the_record(8_611));
    assert_eq!(pd_router_receive(&mut state, 5_012, &reply), 0);
    assert_eq!(held(&state, 5_012), the_hold(8_600));

    // Release, Reply.
    let text = send(pd_router_release, &mut state, 6_000);
    assert_eq!(text, hex(&format!("08 000004 {C} {S} {}", listed())));
    assert_eq!(held(&state, 6_000), [], "dropped when first sent");
    let reply = handle(&mut table, 6_001, &text);
    assert_eq!(reply, hex(&format!("07 000004 {C} {S} 000d 0009 0000 53756363657373")));
    assert_eq!(record(&table, 0), []);
    assert!(table[176..].iter().all(|&byte| byte == 0));
    assert_eq!(pd_router_receive(&mut state, 6_002, &reply), 0);

    // 60 seconds after the last sending of the Release.
    assert_eq!(send_refused(pd_router_solicit, &mut state, 6_060), 12);
    let text = send(pd_router_request, &mut state, 6_061);
    assert_eq!(text, hex(&format!("03 000005 {C} {S} {O} {WISH}")), "the server stays known");
}

#[test]
fn the_state_byte_by_byte() {
    let mut state = start_router(58, 1_000);
    // Last time, start, began, Release; next number; wanted; IAID; DUID.
    let mut expected = hex("00000000000003e8 00000000000003e8 00000000000003e8 00000000000003e8 00000000 3a 00000007 0a");
    expected.extend_from_slice(&ROUTER);
    expected.resize(384, 0);
    assert_eq!(state.to_vec(), expected);

    send(pd_router_solicit, &mut state, 1_061);
    expected[0..8].copy_from_slice(&1_061u64.to_be_bytes());
    expected[16..24].copy_from_slice(&1_061u64.to_be_bytes());
    expected[35] = 1;
    expected[346] = 1;
    assert_eq!(state.to_vec(), expected);

    let reply = hex(&format!("02 000000 {C} {S} {}", granted()));
    assert_eq!(pd_router_receive(&mut state, 1_062, &reply), 0);
    expected[0..8].copy_from_slice(&1_062u64.to_be_bytes());
    expected[172] = 10;
    expected[173..183].copy_from_slice(&BOX);
    expected[346] = 0;
    assert_eq!(state.to_vec(), expected);

    send(pd_router_request, &mut state, 1_063);
    let reply = hex(&format!("07 000001 {C} {S} {}", granted()));
    assert_eq!(pd_router_receive(&mut state, 1_064, &reply), 0);
    expected[0..8].copy_from_slice(&1_064u64.to_be_bytes());
    expected[16..24].copy_from_slice(&1_063u64.to_be_bytes());
    expected[35] = 2;
    expected[303] = 1;
    expected[304..338].copy_from_slice(&delegation(0xaa00, 58, 0xaa3f));
    expected[338..346].copy_from_slice(&4_663u64.to_be_bytes());
    assert_eq!(state.to_vec(), expected);

    send(pd_router_renew, &mut state, 2_000);
    expected[0..8].copy_from_slice(&2_000u64.to_be_bytes());
    expected[16..24].copy_from_slice(&2_000u64.to_be_bytes());
    expected[35] = 3;
    expected[346] = 5;
    expected[347..381].copy_from_slice(&delegation(0xaa00, 58, 0xaa3f));
    assert_eq!(state.to_vec(), expected);

    assert_eq!(pd_router_abandon(&mut state, 2_005), 0);
    expected[0..8].copy_from_slice(&2_005u64.to_be_bytes());
    expected[346..381].fill(0);
    assert_eq!(state.to_vec(), expected);

    send(pd_router_release, &mut state, 2_006);
    expected[0..8].copy_from_slice(&2_006u64.to_be_bytes());
    expected[16..24].copy_from_slice(&2_006u64.to_be_bytes());
    expected[24..32].copy_from_slice(&2_006u64.to_be_bytes());
    expected[35] = 4;
    expected[303..346].fill(0);
    expected[346] = 8;
    expected[347..381].copy_from_slice(&delegation(0xaa00, 58, 0xaa3f));
    assert_eq!(state.to_vec(), expected);

    send(pd_router_resend, &mut state, 2_020);
    expected[0..8].copy_from_slice(&2_020u64.to_be_bytes());
    expected[24..32].copy_from_slice(&2_020u64.to_be_bytes());
    assert_eq!(state.to_vec(), expected);
}

#[test]
fn the_table_byte_by_byte() {
    let mut table = start_box(1, 5);
    let mut expected = hex("0000000000000005 0000 20010db80000aa00 38 38 3c 01 00000708 00000e10 0a");
    expected.extend_from_slice(&BOX);
    expected.resize(39_344, 0);
    assert!(table[..] == expected[..]);

    let ask = message(3, 0, &[client(&ROUTER), server(&BOX), asks_67(), ia_pd(0xDEADBEEF, 0, 0, &[])]);
    handle(&mut table, 6, &ask);
    expected[7] = 6;
    expected[9] = 1;
    expected[176..329].copy_from_slice(&record_bytes(&ROUTER, 0xDEADBEEF, 0xaa00, 60, 1, 3_606));
    assert!(table[..] == expected[..]);
}

/// The delayed Release: it frees only what is bound to its sender and matches.
#[test]
fn a_delayed_release() {
    let mut table = start_box(1, 0);
    let release = hex(&format!("08 000009 {C} {S} {}", listed()));
    let success = hex(&format!("07 000009 {C} {S} 000d 0009 0000 53756363657373"));
    let no_binding = hex(&format!(
        "07 000009 {C} {S} 000d 0009 0000 53756363657373 0019 001b 00000007 00000000 00000000 000d 000b 0003 4e6f42696e64696e67"
    ));

    // Its sender's binding has ended, and another holds the very prefix.
    let other = who(2);
    put_records(
        &mut table,
        &[record_bytes(&ROUTER, 7, 0xaa80, 57, 0, 1_000), record_bytes(&other, 7, 0xaa00, 58, 1, 5_000)],
    );
    assert_eq!(handle(&mut table, 1_000, &release), no_binding);
    assert_eq!(record(&table, 0), record_bytes(&other, 7, 0xaa00, 58, 1, 5_000), "the other's binding stays");
    assert_eq!(record(&table, 1), []);

    // Its sender is bound again, elsewhere: nothing is freed.
    let ask = message(3, 0, &[client(&ROUTER), server(&BOX), ia_pd(7, 0, 0, &[])]);
    handle(&mut table, 1_001, &ask);
    let mine = record_bytes(&ROUTER, 7, 0xaa40, 60, 0, 4_601);
    assert_eq!(record(&table, 1), mine);
    assert_eq!(handle(&mut table, 1_002, &release), no_binding);
    assert_eq!(record(&table, 1), mine);

    // Another IAID of the same DUID is another identity.
    let mut table = start_box(1, 0);
    put_records(&mut table, &[record_bytes(&ROUTER, 8, 0xaa00, 58, 1, 5_000)]);
    assert_eq!(handle(&mut table, 10, &release), no_binding);
    assert_eq!(record(&table, 0), record_bytes(&ROUTER, 8, 0xaa00, 58, 1, 5_000));

    // Bound to its sender and matching: freed, gaps closed up.
    let mut table = start_box(1, 0);
    let last = record_bytes(&other, 7, 0xaa80, 57, 0, 5_000);
    put_records(&mut table, &[record_bytes(&ROUTER, 7, 0xaa00, 58, 1, 5_000), last.clone()]);
    assert_eq!(handle(&mut table, 10, &release), success);
    assert_eq!(record(&table, 0), last);
    assert_eq!(record(&table, 1), []);
    // A second copy finds nothing.
    assert_eq!(handle(&mut table, 11, &release), no_binding);
}
