//! What the box does, rule by rule.
mod common;
use common::*;
use reference::*;

fn renew(n: u16, listed: &[Vec<u8>]) -> Vec<u8> {
    message(5, 0x123456, &[client(&who(n)), server(&BOX), ia_pd(9, 0, 0, listed)])
}

fn rebind(n: u16, listed: &[Vec<u8>]) -> Vec<u8> {
    message(6, 0x123456, &[client(&who(n)), ia_pd(9, 0, 0, listed)])
}

fn release(n: u16, listed: &[Vec<u8>]) -> Vec<u8> {
    message(8, 0x123456, &[client(&who(n)), server(&BOX), ia_pd(9, 0, 0, listed)])
}

fn released(n: u16) -> Vec<u8> {
    message(7, 0x123456, &[client(&who(n)), server(&BOX), status(0, "Success")])
}

fn not_released(n: u16) -> Vec<u8> {
    let ia = ia_pd(9, 0, 0, &[status(3, "NoBinding")]);
    message(7, 0x123456, &[client(&who(n)), server(&BOX), status(0, "Success"), ia])
}

fn zero(length: u8) -> Vec<u8> {
    ia_prefix(0, 0, length, ZERO, &[])
}

fn plain(group: u16, length: u8) -> Vec<u8> {
    ia_prefix(0, 0, length, at(group), &[])
}

fn granted(group: u16, length: u8) -> Vec<u8> {
    ia_prefix(1_800, 3_600, length, at(group), &[])
}

/// The prefix offered to a Solicit of a new asker with this hint, or None for NoPrefixAvail.
fn offered(table: &mut TableBytes, hint: &[Vec<u8>]) -> Option<(u16, u8)> {
    let now = u64::from_be_bytes(table[0..8].try_into().unwrap());
    let got = handle(table, now, &solicit(999, hint));
    if got == answer(2, 999, 0, 0, &[status(6, "NoPrefixAvail")]) {
        return None;
    }
    // 4, Client ID 7, Server ID 14, IA_PD 16, IA Prefix 4 + 8: the length stands at 53, the fourth group at 60.
    let (length, group) = (got[53], u16::from_be_bytes([got[60], got[61]]));
    assert_eq!(got, answer(2, 999, 900, 1_440, &[granted(group, length)]));
    Some((group, length))
}

#[test]
fn the_wanted_length() {
    // S 57, D 59.
    let mut table = start_box_with(56, 57, 59, 1_800, 3_600, 0, 0);
    assert_eq!(offered(&mut table, &[]), Some((0xaa00, 59)), "absent");
    assert_eq!(offered(&mut table, &[zero(0)]), Some((0xaa00, 59)), "0");
    assert_eq!(offered(&mut table, &[plain(0xaa80, 0)]), Some((0xaa00, 59)), "0 beside a prefix that isn't zero");
    assert_eq!(offered(&mut table, &[zero(1)]), Some((0xaa00, 57)), "below S");
    assert_eq!(offered(&mut table, &[zero(56)]), Some((0xaa00, 57)), "below S");
    assert_eq!(offered(&mut table, &[zero(57)]), Some((0xaa00, 57)));
    assert_eq!(offered(&mut table, &[zero(58)]), Some((0xaa00, 58)));
    assert_eq!(offered(&mut table, &[zero(60)]), Some((0xaa00, 60)));
    assert_eq!(offered(&mut table, &[zero(61)]), Some((0xaa00, 60)), "above 60");
    assert_eq!(offered(&mut table, &[zero(128)]), Some((0xaa00, 60)), "above 60");
    assert_eq!(offered(&mut table, &[zero(57), zero(60)]), Some((0xaa00, 57)), "only the first");
    assert_eq!(offered(&mut table, &[zero(60), plain(0xaa80, 57)]), Some((0xaa00, 60)), "only the first");
}

#[test]
fn a_place() {
    let mut table = start_box_with(56, 57, 60, 1_800, 3_600, 0, 0);
    assert_eq!(offered(&mut table, &[plain(0xaa90, 60)]), Some((0xaa90, 60)));
    assert_eq!(offered(&mut table, &[plain(0xaa80, 57)]), Some((0xaa80, 57)));
    assert_eq!(offered(&mut table, &[plain(0xaa00, 56)]), Some((0xaa00, 57)), "shorter than S");
    assert_eq!(offered(&mut table, &[plain(0xaa90, 61)]), Some((0xaa00, 60)), "longer than 60");
    assert_eq!(offered(&mut table, &[plain(0xaa90, 59)]), Some((0xaa00, 59)), "a bit after n");
    let stray = ia_prefix(0, 0, 60, [0x2001, 0xdb8, 0, 0xaa90, 0, 0, 0, 1], &[]);
    assert_eq!(offered(&mut table, &[stray]), Some((0xaa00, 60)), "a bit after n");
    assert_eq!(offered(&mut table, &[plain(0xab90, 60)]), Some((0xaa00, 60)), "not in the pool");
    // Lifetimes and a PD Exclude of a hint are ignored.
    let full = ia_prefix(9, 4, 60, at(0xaa90), &[opt(67, &[64, 0x10])]);
    assert_eq!(offered(&mut table, &[full]), Some((0xaa90, 60)));
    // Over, equal to, and inside a live one: not free.
    put_records(&mut table, &[record_bytes(&who(1), 9, 0xaa90, 59 + 1, 0, 1_000)]);
    assert_eq!(offered(&mut table, &[plain(0xaa80, 58)]), Some((0xaa00, 58)), "a /58 over a live /60");
    assert_eq!(offered(&mut table, &[plain(0xaa90, 60)]), Some((0xaa00, 60)));
    put_records(&mut table, &[record_bytes(&who(1), 9, 0xaa80, 58, 0, 1_000)]);
    assert_eq!(offered(&mut table, &[plain(0xaa90, 60)]), Some((0xaa00, 60)), "inside a live /58");
    assert_eq!(offered(&mut table, &[plain(0xaac0, 60)]), Some((0xaac0, 60)), "beside it");
}

#[test]
fn a_pool_of_zeros() {
    let mut table = [0u8; TABLE_BYTES];
    assert_eq!(pd_box_start(&mut table, 0, 0, 56, 56, 60, 120, 120, 0, &BOX, 0), 0);
    put_records(&mut table, &[{
        let mut one = record_bytes(&who(1), 9, 0x0010, 60, 0, 1_000);
        one[5..11].fill(0);
        one
    }]);
    // ::/59 is asked for by length and overlaps ::10/60 (by fourth group): the next is ::20/59.
    let got = handle(&mut table, 1, &solicit(2, &[zero(59)]));
    let inner = ia_prefix(120, 120, 59, [0, 0, 0, 0x20, 0, 0, 0, 0], &[]);
    assert_eq!(got, answer(2, 2, 60, 96, &[inner]));
    // ::/60 is free and lowest; a prefix of zeros can be given.
    let got = handle(&mut table, 1, &request(2, &[zero(60)]));
    assert_eq!(got, answer(7, 2, 60, 96, &[ia_prefix(120, 120, 60, ZERO, &[])]));
}

#[test]
fn a_pool_at_the_top_of_the_address_space() {
    let mut table = [0u8; TABLE_BYTES];
    assert_eq!(pd_box_start(&mut table, 0xFFFF_FFFF_FFFF_FF00, 0, 56, 60, 60, 120, 120, 1, &BOX, 0), 0);
    for n in 0..16u16 {
        let got = handle(&mut table, 1, &request(n, &[]));
        let group = 0xff00 + 16 * n;
        let inner = ia_prefix(120, 120, 60, [0xffff, 0xffff, 0xffff, group, 0, 0, 0, 0], &[]);
        assert_eq!(got, answer(7, n, 60, 96, &[inner]));
    }
    assert_eq!(handle(&mut table, 1, &request(16, &[])), answer(7, 16, 0, 0, &[status(6, "NoPrefixAvail")]));
}

#[test]
fn an_offer_is_not_stored_and_a_binding_is_offered_again() {
    let mut table = start_box(1, 0);
    assert_eq!(handle(&mut table, 5, &solicit(1, &[])), answer(2, 1, 900, 1_440, &[granted(0xaa00, 60)]));
    assert_eq!(handle(&mut table, 5, &solicit(2, &[])), answer(2, 2, 900, 1_440, &[granted(0xaa00, 60)]));
    assert_eq!(pd_box_live(&table, 5), 0);
    // Bound with 67 at 6; then asked again with other wishes: unchanged, its PD Exclude asked for or not.
    let bind = message(3, 0x123456, &[client(&who(1)), server(&BOX), asks_67(), ia_pd(9, 0, 0, &[zero(58)])]);
    let bound = [ia_prefix(1_800, 3_600, 58, at(0xaa00), &[hex("0043 0002 40 fc")])];
    assert_eq!(handle(&mut table, 6, &bind), answer(7, 1, 900, 1_440, &bound));
    assert_eq!(handle(&mut table, 7, &solicit(1, &[plain(0xaa80, 57)])), answer(2, 1, 900, 1_440, &bound));
    assert_eq!(record(&table, 0), record_bytes(&who(1), 9, 0xaa00, 58, 1, 3_606), "a Solicit doesn't extend");
    assert_eq!(handle(&mut table, 8, &request(1, &[plain(0xaa80, 57)])), answer(7, 1, 900, 1_440, &bound));
    assert_eq!(record(&table, 0), record_bytes(&who(1), 9, 0xaa00, 58, 1, 3_608), "a Request extends");
}

#[test]
fn excluded_exactly_if_on_and_asked() {
    let go = |exclusion: u8, requests: &[Vec<u8>]| {
        let mut table = start_box(exclusion, 0);
        let mut options = vec![client(&who(1)), server(&BOX)];
        options.extend_from_slice(requests);
        options.push(ia_pd(9, 0, 0, &[]));
        handle(&mut table, 1, &message(3, 0, &options));
        record(&table, 0)[14]
    };
    assert_eq!(go(1, &[]), 0);
    assert_eq!(go(0, &[asks_67()]), 0);
    assert_eq!(go(1, &[asks_67()]), 1);
    assert_eq!(go(1, &[opt(6, &[])]), 0);
    assert_eq!(go(1, &[opt(6, &[0, 23]), opt(6, &[0, 24, 0, 67, 0, 25])]), 1);
    assert_eq!(go(1, &[opt(6, &[1, 0, 67, 1])]), 0, "67 across two codes");
    assert_eq!(go(1, &[opt(6, &[67, 0])]), 0);
}

#[test]
fn extending_takes_the_later_end_and_doesnt_move_a_record() {
    let mut table = start_box(0, 0);
    let third = record_bytes(&who(3), 9, 0xaa20, 60, 0, u64::MAX);
    put_records(
        &mut table,
        &[
            record_bytes(&who(1), 9, 0xaa00, 60, 0, 1_000),
            record_bytes(&who(2), 9, 0xaa10, 60, 0, 99_000),
            third.clone(),
        ],
    );
    for n in 1..=3 {
        handle(&mut table, 500, &renew(n, &[]));
    }
    assert_eq!(record(&table, 0), record_bytes(&who(1), 9, 0xaa00, 60, 0, 4_100));
    assert_eq!(record(&table, 1), record_bytes(&who(2), 9, 0xaa10, 60, 0, 99_000));
    assert_eq!(record(&table, 2), third);
    for n in 1..=3 {
        handle(&mut table, 600, &rebind(n, &[]));
    }
    assert_eq!(record(&table, 0), record_bytes(&who(1), 9, 0xaa00, 60, 0, 4_200));
    assert_eq!(record(&table, 1), record_bytes(&who(2), 9, 0xaa10, 60, 0, 99_000));
    for n in 1..=3 {
        handle(&mut table, 700, &request(n, &[]));
    }
    assert_eq!(record(&table, 0), record_bytes(&who(1), 9, 0xaa00, 60, 0, 4_300));
    assert_eq!(record(&table, 2), third);
}

#[test]
fn renew_and_rebind_list_the_binding_first_and_then_what_differs() {
    for ask in [renew, rebind] {
        let mut table = start_box(1, 0);
        put_records(&mut table, &[record_bytes(&who(1), 9, 0xaa40, 58, 1, 1_000)]);
        let own = ia_prefix(1_800, 3_600, 58, at(0xaa40), &[hex("0043 0002 40 fc")]);
        // Nothing listed.
        assert_eq!(handle(&mut table, 1, &ask(1, &[])), answer(7, 1, 900, 1_440, std::slice::from_ref(&own)));
        // The binding listed twice comes once; with a PD Exclude of another kind it is still the binding.
        let with_exclude = ia_prefix(7, 8, 58, at(0xaa40), &[opt(67, &[59, 0])]);
        assert_eq!(
            handle(&mut table, 1, &ask(1, &[plain(0xaa40, 58), with_exclude])),
            answer(7, 1, 900, 1_440, std::slice::from_ref(&own))
        );
        // Another length, a stray bit, another prefix twice: as sent, lifetimes 0, no options.
        let stray = [0x2001, 0xdb8, 0, 0xaa40, 0, 0, 0, 1];
        let listed = [
            ia_prefix(5, 6, 59, at(0xaa40), &[opt(67, &[64, 0]), status(0, "x")]),
            ia_prefix(5, 6, 58, stray, &[]),
            plain(0x1234, 128),
            plain(0x1234, 128),
        ];
        let expected = [
            own,
            ia_prefix(0, 0, 59, at(0xaa40), &[]),
            ia_prefix(0, 0, 58, stray, &[]),
            plain(0x1234, 128),
            plain(0x1234, 128),
        ];
        assert_eq!(handle(&mut table, 1, &ask(1, &listed)), answer(7, 1, 900, 1_440, &expected));
    }
}

#[test]
fn the_longest_answer_has_442_bytes() {
    let long = vec![0xDD; 130];
    let mut table = [0u8; TABLE_BYTES];
    assert_eq!(pd_box_start(&mut table, 0x2001_0db8 << 32, 0, 32, 32, 32, 120, 120, 1, &long, 0), 0);
    let bind = message(3, 0, &[client(&long), server(&long), asks_67(), ia_pd(1, 0, 0, &[])]);
    handle(&mut table, 1, &bind);
    let others = vec![plain(0, 33); 4];
    let ask = message(5, 0, &[client(&long), server(&long), ia_pd(1, 0, 0, &others)]);
    let own = ia_prefix(120, 120, 32, at(0), &[hex("0043 0005 40 ffffffff")]);
    let expected =
        message(7, 0, &[client(&long), server(&long), ia_pd(1, 60, 96, &[vec![own], others].concat())]);
    assert_eq!(expected.len(), 442);
    assert_eq!(handle(&mut table, 2, &ask), expected);
}

#[test]
fn renew_without_a_binding() {
    let mut table = start_box(0, 0);
    put_records(&mut table, &[record_bytes(&who(2), 9, 0xaa00, 60, 0, 50)]);
    let got = handle(&mut table, 60, &renew(1, &[plain(0xaa00, 60)]));
    assert_eq!(got, answer(7, 1, 0, 0, &[status(3, "NoBinding")]));
    assert_eq!(table[0..8], 60u64.to_be_bytes(), "an answer and no refusal: the clock is set");
    assert_eq!(record(&table, 0), [], "and ended records are dropped");
}

#[test]
fn rebind_silent_and_rebind_outside_the_pool() {
    let mut table = start_box(0, 0);
    put_records(&mut table, &[record_bytes(&who(2), 9, 0xaa00, 60, 0, 50)]);
    // Silent: nothing listed, or one of those listed lies in the pool.
    assert_eq!(refusal(&mut table, 60, &rebind(1, &[])), 8);
    assert_eq!(refusal(&mut table, 60, &rebind(1, &[plain(0xaa00, 56)])), 8);
    assert_eq!(refusal(&mut table, 60, &rebind(1, &[plain(0xaaff, 60)])), 8, "stray bits, but inside");
    assert_eq!(refusal(&mut table, 60, &rebind(1, &[plain(0xaaff, 128)])), 8);
    assert_eq!(refusal(&mut table, 60, &rebind(1, &[plain(0xab00, 60), plain(0xaa10, 60)])), 8);
    // Outside: beside the pool, shorter than the pool, the zero prefix.
    let listed = [
        ia_prefix(3, 4, 60, at(0xab00), &[opt(67, &[64, 0]), status(1, "")]),
        ia_prefix(3, 4, 55, at(0xaa00), &[]),
        zero(0),
        ia_prefix(3, 4, 48, [0x2001, 0xdb8, 0, 0xaa00, 1, 2, 3, 4], &[]),
    ];
    let expected = [
        plain(0xab00, 60),
        plain(0xaa00, 55),
        zero(0),
        ia_prefix(0, 0, 48, [0x2001, 0xdb8, 0, 0xaa00, 1, 2, 3, 4], &[]),
    ];
    assert_eq!(handle(&mut table, 60, &rebind(1, &listed)), answer(7, 1, 0, 0, &expected));
    assert_eq!(table[0..8], 60u64.to_be_bytes());
    assert_eq!(record(&table, 0), [], "the ended record is dropped");
}

#[test]
fn release_frees_exactly_what_matches() {
    let own = record_bytes(&who(1), 9, 0xaa40, 58, 1, 1_000);
    let bare = record_bytes(&who(1), 9, 0xaa40, 58, 0, 1_000);
    let other = record_bytes(&who(2), 9, 0xaa00, 60, 0, 1_000);
    let go = |mine: &Vec<u8>, listed: &[Vec<u8>], freed: bool| {
        let mut table = start_box(1, 0);
        put_records(&mut table, &[mine.clone(), other.clone()]);
        let got = handle(&mut table, 7, &release(1, listed));
        if freed {
            assert_eq!(got, released(1));
            assert_eq!(record(&table, 0), other);
            assert_eq!(record(&table, 1), []);
            // The whole delegation is then free.
            assert_eq!(offered(&mut table, &[plain(0xaa40, 58)]), Some((0xaa40, 58)));
        } else {
            assert_eq!(got, not_released(1));
            assert_eq!(&record(&table, 0), mine, "not extended either");
            assert_eq!(record(&table, 1), other);
        }
    };
    let ex = |content: &[u8]| vec![opt(67, content)];
    let with = |group, length, inner: &[Vec<u8>]| ia_prefix(0, 0, length, at(group), inner);
    // aa7f::/64 in aa40::/58 is 40 fc.
    go(&own, &[with(0xaa40, 58, &ex(&[64, 0xfc]))], true);
    go(&own, &[plain(0xaa40, 58)], true);
    go(&own, &[], false);
    go(&own, &[plain(0xaa40, 59)], false);
    go(&own, &[plain(0xaa41, 58)], false);
    go(&own, &[plain(0xaa00, 60)], false);
    go(&own, &[plain(0xaa00, 60), plain(0xaa40, 58)], true);
    go(&own, &[with(0xaa40, 58, &ex(&[64, 0xf8]))], false);
    go(&own, &[with(0xaa40, 58, &ex(&[65, 0xfc]))], false);
    go(&own, &[with(0xaa40, 58, &ex(&[63, 0xf8]))], false);
    // A PD Exclude of another listed prefix counts too, compared as a prefix.
    go(&own, &[plain(0xaa40, 58), with(0xaa00, 56, &ex(&[64, 0x7f]))], true);
    go(&own, &[plain(0xaa40, 58), with(0xaa00, 56, &ex(&[64, 0x7e]))], false);
    go(&own, &[plain(0xaa40, 58), with(0xaa41, 60, &ex(&[64, 0xf0]))], false);
    // A binding with none.
    go(&bare, &[plain(0xaa40, 58)], true);
    go(&bare, &[with(0xaa40, 58, &ex(&[64, 0xfc]))], false);
}

#[test]
fn a_full_pool() {
    let mut table = start_box(0, 0);
    for n in 0..16u16 {
        let got = handle(&mut table, 1, &request(n, &[]));
        assert_eq!(got, answer(7, n, 900, 1_440, &[granted(0xaa00 + 16 * n, 60)]));
    }
    let none = |n| answer(7, n, 0, 0, &[status(6, "NoPrefixAvail")]);
    assert_eq!(handle(&mut table, 2, &request(16, &[])), none(16));
    assert_eq!(handle(&mut table, 2, &request(16, &[plain(0xaa00, 60)])), none(16));
    assert_eq!(handle(&mut table, 2, &request(16, &[zero(56)])), none(16));
    assert_eq!(handle(&mut table, 2, &solicit(16, &[])), answer(2, 16, 0, 0, &[status(6, "NoPrefixAvail")]));
    assert_eq!(pd_box_live(&table, 2), 16);
    // One that is bound is served.
    assert_eq!(handle(&mut table, 2, &request(3, &[])), answer(7, 3, 900, 1_440, &[granted(0xaa30, 60)]));
    // One goes, one comes, last in the order.
    assert_eq!(handle(&mut table, 3, &release(5, &[plain(0xaa50, 60)])), released(5));
    assert_eq!(handle(&mut table, 3, &request(16, &[zero(56)])), answer(7, 16, 900, 1_440, &[granted(0xaa50, 60)]));
    assert_eq!(record(&table, 15), record_bytes(&who(16), 9, 0xaa50, 60, 0, 3_603));
    assert_eq!(record(&table, 5), record_bytes(&who(6), 9, 0xaa60, 60, 0, 3_601));
}

#[test]
fn a_full_table() {
    // 2001:db8:0:a000::/51 has room for 512 /60s.
    let mut table = [0u8; TABLE_BYTES];
    assert_eq!(pd_box_start(&mut table, 0x2001_0db8_0000_a000, 0, 51, 51, 60, 1_800, 3_600, 0, &BOX, 0), 0);
    for n in 0..256u16 {
        let got = handle(&mut table, n as u64, &request(n, &[]));
        assert_eq!(got, answer(7, n, 900, 1_440, &[granted(0xa000 + 16 * n, 60)]));
    }
    assert_eq!(pd_box_live(&table, 255), 256);
    let none = answer(7, 256, 0, 0, &[status(6, "NoPrefixAvail")]);
    assert_eq!(handle(&mut table, 300, &request(256, &[])), none);
    assert_eq!(handle(&mut table, 300, &request(256, &[plain(0xb000, 60)])), none, "before a good place");
    assert_eq!(handle(&mut table, 300, &request(7, &[])), answer(7, 7, 900, 1_440, &[granted(0xa070, 60)]));
    // The first ends at 3,600: then there is room again. At 3,600 only who(0) has ended.
    assert_eq!(handle(&mut table, 3_599, &request(256, &[])), none);
    let got = handle(&mut table, 3_600, &request(256, &[plain(0xb000, 60)]));
    assert_eq!(got, answer(7, 256, 900, 1_440, &[granted(0xb000, 60)]));
    assert_eq!(record(&table, 0), record_bytes(&who(1), 9, 0xa010, 60, 0, 3_601));
    assert_eq!(record(&table, 255), record_bytes(&who(256), 9, 0xb000, 60, 0, 7_200));
    assert_eq!(pd_box_live(&table, 3_600), 256);
}

#[test]
fn identities_differ_by_iaid_by_bytes_and_by_length() {
    let mut table = start_box(0, 0);
    let ask = |duid: &[u8], iaid: u32| message(3, 0, &[client(duid), server(&BOX), ia_pd(iaid, 0, 0, &[])]);
    for (duid, iaid) in [(&[1u8, 2, 3][..], 1), (&[1, 2, 3], 2), (&[1, 2, 3, 0], 1), (&[1, 2, 4], 1)] {
        handle(&mut table, 1, &ask(duid, iaid));
    }
    assert_eq!(pd_box_live(&table, 1), 4);
    handle(&mut table, 1, &ask(&[1, 2, 3, 0], 1));
    assert_eq!(pd_box_live(&table, 1), 4);
}

#[test]
fn status_codes_and_times_of_a_message_are_passed_over() {
    let mut table = start_box(0, 0);
    let noisy = message(
        1,
        0x123456,
        &[
            status(6, ""),
            client(&who(1)),
            opt(26, &[]),
            opt(67, &[]),
            ia_pd(9, 9, 1, &[status(3, "x"), opt(67, &[]), opt(25, &[]), opt(1, &[]), opt(6, &[1])]),
            opt(0xFFFF, &[0]),
        ],
    );
    assert_eq!(handle(&mut table, 1, &noisy), answer(2, 1, 900, 1_440, &[granted(0xaa00, 60)]));
}

#[test]
fn the_time_may_stand_still_and_not_go_back() {
    let mut table = start_box(0, 100);
    handle(&mut table, 100, &solicit(1, &[]));
    handle(&mut table, 150, &solicit(1, &[]));
    assert_eq!(refusal(&mut table, 149, &solicit(1, &[])), 1);
    handle(&mut table, 150, &solicit(1, &[]));
    assert_eq!(pd_box_live(&table, 1_000), 0);
    assert_eq!(table[0..8], 150u64.to_be_bytes(), "live doesn't set the last time");
}
