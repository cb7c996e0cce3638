//! The generator reaches what it says, and what holds for every call holds for what it makes.
mod common;
use reference::generate::*;
use reference::prefix::{decode_excluded, encode_excluded, mask, Prefix};
use reference::router::State;
use reference::table::Table;
use reference::wire::{read_message, Why};
use reference::*;
use std::collections::BTreeMap;

const ROUNDS: u64 = 20_000;

#[test]
fn the_same_seed_gives_the_same_values() {
    let run = |seed| {
        let mut r = Random::new(seed);
        let table = sound_table(&mut r);
        let state = sound_state(&mut r);
        let damaged = damaged_table(&mut r, &table);
        (table, state, damaged, message_to_box(&mut r, &sound_table(&mut Random::new(1))), r.word())
    };
    assert!(run(7) == run(7));
    assert!(run(7) != run(8));
}

#[test]
fn sound_tables_and_states_are_sound_and_have_one_representation() {
    let mut r = Random::new(1);
    let mut counts = BTreeMap::new();
    for _ in 0..3_000 {
        let bytes = sound_table(&mut r);
        let table = Table::read(&bytes).expect("sound");
        assert!(*table_bytes(&table) == *bytes);
        *counts.entry(table.records.len()).or_insert(0) += 1;
        let bytes = sound_state(&mut r);
        let state = State::read(&bytes).expect("sound");
        assert!(state_bytes(&state) == bytes);
    }
    for count in [0, 1, 2, 16, 255, 256] {
        assert!(counts.contains_key(&count), "{count} records");
    }
}

/// A slow second opinion on soundness, from the bytes alone.
fn table_is_sound_by_ranges(bytes: &TableBytes) -> bool {
    let u64_at = |at: usize| u64::from_be_bytes(bytes[at..at + 8].try_into().unwrap());
    let u32_at = |at: usize| u32::from_be_bytes(bytes[at..at + 4].try_into().unwrap());
    let zeros = |from: usize, to: usize| (from..to).all(|at| bytes[at] == 0);
    let count = bytes[8] as usize * 256 + bytes[9] as usize;
    let (p, s, d) = (bytes[18], bytes[19], bytes[20]);
    // First and last upper half of a prefix, or None where a bit stands after its length.
    let range = |at: usize, length: u8| {
        let first = u64_at(at);
        let size = 1u128 << (64 - length as u32);
        (first as u128 % size == 0).then(|| (first, (first as u128 + size - 1) as u64))
    };
    if count > 256 || u64_at(0) >> 48 != 0 || !(32..=56).contains(&p) || s < p || d < s || d > 60 || bytes[21] > 1 {
        return false;
    }
    if u32_at(22) < 120 || u32_at(26) < u32_at(22) {
        return false;
    }
    let duid_good = |length: u8, at: usize| (3..=130).contains(&length) && zeros(at + length as usize, at + 130);
    if !duid_good(bytes[30], 31) || !zeros(161, 176) || !zeros(176 + 153 * count, 39_344) {
        return false;
    }
    let Some(pool) = range(10, p) else {
        return false;
    };
    let mut ranges: Vec<(u64, u64)> = Vec::new();
    let mut identities = Vec::new();
    for i in 0..count {
        let at = 176 + 153 * i;
        let length = bytes[at + 13];
        if !duid_good(bytes[at], at + 23) || length < s || length > 60 || bytes[at + 14] > bytes[21] {
            return false;
        }
        let end = u64_at(at + 15);
        if end >> 49 != 0 && end != u64::MAX {
            return false;
        }
        let Some(own) = range(at + 5, length) else {
            return false;
        };
        if own.0 < pool.0 || own.1 > pool.1 {
            return false;
        }
        ranges.push(own);
        // With zeros after it, length and field decide the DUID.
        identities.push((bytes[at], u32_at(at + 1), bytes[at + 23..at + 153].to_vec()));
    }
    ranges.sort();
    identities.sort();
    ranges.windows(2).all(|two| two[0].1 < two[1].0) && identities.windows(2).all(|two| two[0] != two[1])
}

#[test]
fn damaged_tables_and_states() {
    let mut r = Random::new(2);
    let (mut unsound, mut still) = (0, 0);
    let (mut state_unsound, mut state_still) = (0, 0);
    for _ in 0..ROUNDS / 4 {
        let good = sound_table(&mut r);
        assert!(table_is_sound_by_ranges(&good));
        let bad = damaged_table(&mut r, &good);
        assert_eq!(Table::read(&bad).is_some(), table_is_sound_by_ranges(&bad));
        match Table::read(&bad) {
            None => unsound += 1,
            // What a byte can change and leave sound has one representation too.
            Some(table) => {
                still += 1;
                assert!(*table_bytes(&table) == *bad);
            }
        }
        let good = sound_state(&mut r);
        let bad = damaged_state(&mut r, &good);
        match State::read(&bad) {
            None => state_unsound += 1,
            Some(state) => {
                state_still += 1;
                assert!(state_bytes(&state) == bad);
            }
        }
    }
    println!("tables: {unsound} unsound, {still} still sound; states: {state_unsound}, {state_still}");
    assert!(unsound > still && state_unsound > state_still / 2 && still > 100 && state_still > 100);
}

/// The box: every refusal, every kind of answer; nothing written on a refusal; sound afterwards.
#[test]
fn a_campaign_against_the_box() {
    let mut r = Random::new(3);
    let mut refusals = BTreeMap::new();
    let mut answers: BTreeMap<(u8, &str), u64> = BTreeMap::new();
    let mut whys: BTreeMap<String, u64> = BTreeMap::new();
    let mut longest = 0;
    let mut table = sound_table(&mut r);
    for round in 0..ROUNDS {
        if round % 8 == 0 {
            table = sound_table(&mut r);
        }
        if r.once_in(40) {
            let bad = damaged_table(&mut r, &table);
            let mut room = [0x5Au8; 512];
            let mut copy = bad.clone();
            let word = pd_box_handle(&mut copy, 0, &[], &mut room);
            assert_eq!(word == refused(9), !table_is_sound_by_ranges(&bad));
            assert!(copy == bad);
            if word == refused(9) {
                *refusals.entry(9).or_insert(0) += 1;
            }
        }
        let now = table_time(&mut r, &table);
        let text = message_to_box(&mut r, &table);
        if let Err(broken) = read_message(&text) {
            *whys.entry(format!("{:?}", broken.why)).or_insert(0) += 1;
            assert!(broken.place <= text.len());
        }
        let before = table.clone();
        let mut room_bytes = vec![0x5Au8; room(&mut r, 512)];
        let word = pd_box_handle(&mut table, now, &text, &mut room_bytes);
        if word >= 65_536 {
            assert_eq!(word % 65_536, 0);
            assert!(table == before && room_bytes.iter().all(|&byte| byte == 0x5A));
            *refusals.entry(word / 65_536).or_insert(0) += 1;
            continue;
        }
        let length = word as usize;
        longest = longest.max(length);
        assert!(room_bytes[length..].iter().all(|&byte| byte == 0x5A));
        let after = Table::read(&table).expect("sound afterwards");
        assert_eq!(after.last, now);
        assert!(after.records.iter().all(|record| record.end > now));
        let read = read_message(&room_bytes[..length]).expect("an answer is well formed");
        assert_eq!(room_bytes[1..4], text[1..4]);
        let asked = read_message(&text).expect("a message that is answered is well formed");
        assert_eq!(read.client_ids, asked.client_ids);
        assert_eq!(read.server_ids, [after.settings.duid.own()]);
        let what = if read.has_status(wire::NO_PREFIX_AVAIL) {
            "NoPrefixAvail"
        } else if read.has_status(wire::NO_BINDING) {
            "NoBinding"
        } else if asked.kind == RELEASE {
            "freed"
        } else if read.ia_pds[0].t1 == 0 {
            "outside"
        } else if read.ia_pds[0].prefixes[0].excluded.is_some() {
            "with an excluded prefix"
        } else {
            "plain"
        };
        *answers.entry((asked.kind, what)).or_insert(0) += 1;
    }
    println!("refusals {refusals:?}\nanswers {answers:?}\nwhys {whys:?}\nlongest {longest}");
    for number in 1..=9 {
        assert!(refusals.get(&number).copied().unwrap_or(0) > 30, "refusal {number}");
    }
    for kind in [SOLICIT, REQUEST] {
        for what in ["plain", "with an excluded prefix", "NoPrefixAvail"] {
            assert!(answers[&(kind, what)] > 20, "{kind} {what}");
        }
    }
    for (kind, what) in [
        (RENEW, "plain"),
        (RENEW, "with an excluded prefix"),
        (RENEW, "NoBinding"),
        (REBIND, "plain"),
        (REBIND, "with an excluded prefix"),
        (REBIND, "outside"),
        (RELEASE, "freed"),
        (RELEASE, "NoBinding"),
    ] {
        assert!(answers[&(kind, what)] > 20, "{kind} {what}");
    }
    for why in [
        Why::TextLength,
        Why::LeftOver,
        Why::RunsPast,
        Why::OptionRequestOdd,
        Why::StatusShort,
        Why::IaPdShort,
        Why::IaPrefixShort,
        Why::PrefixLength,
        Why::ExcludedLength,
        Why::ExcludeContentLength,
        Why::ExcludePad,
        Why::ExcludeTwice,
    ] {
        assert!(whys.get(&format!("{why:?}")).copied().unwrap_or(0) >= 10, "{why:?}");
    }
}

type Step = fn(&mut StateBytes, u64, &mut [u8]) -> u64;

/// The router: every refusal of every step, every kind of acceptance.
#[test]
fn a_campaign_against_the_router() {
    let steps: [(&str, Step); 6] = [
        ("solicit", pd_router_solicit),
        ("request", pd_router_request),
        ("renew", pd_router_renew),
        ("rebind", pd_router_rebind),
        ("release", pd_router_release),
        ("resend", pd_router_resend),
    ];
    let mut r = Random::new(4);
    let mut seen: BTreeMap<(&str, u64), u64> = BTreeMap::new();
    let mut accepted: BTreeMap<(u8, &str), u64> = BTreeMap::new();
    let mut longest = 0;
    for _ in 0..4 * ROUNDS {
        let mut state = sound_state(&mut r);
        if r.once_in(12) {
            state = damaged_state(&mut r, &state);
        }
        let before = state;
        let kept = State::read(&state);
        let now = state_time(&mut r, &state);
        let choice = r.below(12) as usize;
        if choice < steps.len() {
            let (name, step) = steps[choice];
            let mut room_bytes = vec![0x5Au8; room(&mut r, 512)];
            let word = step(&mut state, now, &mut room_bytes);
            *seen.entry((name, word / 65_536)).or_insert(0) += 1;
            if word >= 65_536 {
                assert!(state == before && room_bytes.iter().all(|&byte| byte == 0x5A));
                continue;
            }
            let length = word as usize;
            longest = longest.max(length);
            let after = State::read(&state).expect("sound afterwards");
            assert_eq!(after.last, now);
            assert!(room_bytes[length..].iter().all(|&byte| byte == 0x5A));
            let read = read_message(&room_bytes[..length]).expect("a message is well formed");
            assert_eq!(read.client_ids, [after.duid.own()]);
            assert_eq!(read.ia_pds[0].iaid, after.iaid);
            // Resent, it has the same bytes.
            let mut again = vec![0x5Au8; 512];
            assert_eq!(pd_router_resend(&mut state, now, &mut again), word);
            assert_eq!(again[..length], room_bytes[..length]);
        } else if choice == 6 {
            let word = pd_router_abandon(&mut state, now);
            *seen.entry(("abandon", word / 65_536)).or_insert(0) += 1;
            if word != 0 {
                assert!(state == before);
            } else {
                assert!(State::read(&state).expect("sound").open.is_none());
            }
        } else if choice == 7 {
            let mut room_bytes = vec![0x5Au8; room(&mut r, 42)];
            let word = pd_router_held(&state, now, &mut room_bytes);
            *seen.entry(("held", word / 65_536)).or_insert(0) += 1;
            assert!(state == before);
            assert!(word == 0 || word == 42 || word >= 65_536);
            if word != 42 {
                assert!(room_bytes.iter().all(|&byte| byte == 0x5A));
            }
        } else {
            let text = message_to_router(&mut r, &state, now);
            let word = pd_router_receive(&mut state, now, &text);
            *seen.entry(("receive", word / 65_536)).or_insert(0) += 1;
            if word != 0 {
                assert!(state == before);
                continue;
            }
            let kept = kept.expect("accepted, so sound");
            let after = State::read(&state).expect("sound afterwards");
            assert!(after.open.is_none() && after.last == now);
            let what = if after.held.is_none() {
                "nothing held"
            } else if after.held == kept.held {
                "held as before"
            } else if after.held.is_some_and(|held| held.end == NEVER) {
                "never"
            } else {
                "taken"
            };
            *accepted.entry((kept.open.expect("open").kind, what)).or_insert(0) += 1;
        }
    }
    println!("seen {seen:?}\naccepted {accepted:?}\nlongest {longest}");
    for name in ["solicit", "request", "renew", "rebind", "release"] {
        for number in [0, 1, 2, 9, 11, 12, 13] {
            if (name, number) != ("solicit", 13) {
                assert!(seen.get(&(name, number)).copied().unwrap_or(0) > 20, "{name} {number}");
            }
        }
    }
    for (name, numbers) in
        [("resend", &[0u64, 1, 2, 9, 13][..]), ("abandon", &[0, 1, 9, 13]), ("held", &[0, 1, 2, 9]), ("receive", &[0, 1, 9, 14])]
    {
        for number in numbers {
            assert!(seen.get(&(name, *number)).copied().unwrap_or(0) > 20, "{name} {number}");
        }
    }
    for kind in [REQUEST, RENEW, REBIND] {
        for what in ["nothing held", "taken", "never"] {
            assert!(accepted.get(&(kind, what)).copied().unwrap_or(0) > 20, "{kind} {what}");
        }
    }
    assert!(accepted[&(SOLICIT, "held as before")] > 20 && accepted[&(RELEASE, "held as before")] > 20);
}

#[test]
fn starts() {
    let mut r = Random::new(5);
    let mut seen: BTreeMap<(&str, u64), u64> = BTreeMap::new();
    for _ in 0..2_000 {
        let mut table = Box::new([0xEEu8; TABLE_BYTES]);
        let word = box_start(&mut r).call(&mut table);
        *seen.entry(("box", word / 65_536)).or_insert(0) += 1;
        assert_eq!(word == 0, Table::read(&table).is_some());
        assert!(word == 0 || table.iter().all(|&byte| byte == 0xEE));
        let mut state = [0xEEu8; STATE_BYTES];
        let word = router_start(&mut r).call(&mut state);
        *seen.entry(("router", word / 65_536)).or_insert(0) += 1;
        assert_eq!(word == 0, State::read(&state).is_some());
        assert!(word == 0 || state.iter().all(|&byte| byte == 0xEE));
    }
    println!("{seen:?}");
    for who in ["box", "router"] {
        for number in [0, 1, 10] {
            assert!(seen[&(who, number)] > 20, "{who} {number}");
        }
    }
}

/// Genuine lives: routers and a box talk, with losses, delays and copies; both ends stay sound, and what a router
/// counts as held is bound at the box until at least that end.
#[test]
fn lives_of_routers_against_a_box() {
    let steps: [Step; 6] = [
        pd_router_solicit,
        pd_router_request,
        pd_router_renew,
        pd_router_rebind,
        pd_router_release,
        pd_router_resend,
    ];
    let mut takes = 0u64;
    for seed in 0..60 {
        let mut r = Random::new(1_000 + seed);
        let mut table = Box::new([0u8; TABLE_BYTES]);
        let shortest = r.from_to(56, 60) as u8;
        assert_eq!(
            pd_box_start(&mut table, 0x2001_0db8_0000_aa00, 0, 56, shortest, 60, 120, 300, 1, b"the box", 0),
            0
        );
        let mut routers: Vec<StateBytes> = (0..6u8)
            .map(|n| {
                let mut state = [0u8; STATE_BYTES];
                assert_eq!(pd_router_start(&mut state, &[b'r', b'0', n / 2], n as u32 % 2, 56 + n % 5, 0), 0);
                state
            })
            .collect();
        let mut now = 61;
        // Messages under way: arrival, to whom (6 is the box), text.
        let mut under_way: Vec<(u64, usize, Vec<u8>)> = Vec::new();
        for _ in 0..2_000 {
            now += r.below(5);
            let at = r.below(6) as usize;
            let step = r.pick(&steps);
            let mut room_bytes = [0u8; 512];
            let word = step(&mut routers[at], now, &mut room_bytes);
            if word < 65_536 {
                for _ in 0..r.pick(&[0, 1, 1, 1, 2]) {
                    under_way.push((now + r.below(31), 6, room_bytes[..word as usize].to_vec()));
                }
            }
            if r.once_in(30) {
                pd_router_abandon(&mut routers[at], now);
            }
            let mut i = 0;
            while i < under_way.len() {
                if under_way[i].0 > now {
                    i += 1;
                    continue;
                }
                let (arrival, to, text) = under_way.swap_remove(i);
                if now - arrival > 4 {
                    continue;
                }
                if to == 6 {
                    let word = pd_box_handle(&mut table, now, &text, &mut room_bytes);
                    if word < 65_536 {
                        for n in 0..6 {
                            if !r.once_in(10) {
                                under_way.push((now + r.below(10), n, room_bytes[..word as usize].to_vec()));
                            }
                        }
                    }
                } else {
                    pd_router_receive(&mut routers[to], now, &text);
                }
            }
            let kept = Table::read(&table).expect("a sound table");
            for state in &routers {
                let state = State::read(state).expect("a sound state");
                let Some(held) = state.held.filter(|held| held.end > now) else {
                    continue;
                };
                takes += 1;
                let bound = kept
                    .records
                    .iter()
                    .find(|record| record.is_of(state.duid.own(), state.iaid))
                    .expect("bound while it counts as held");
                assert_eq!(bound.prefix, held.delegation.prefix);
                assert_eq!(bound.excluded(), held.delegation.excluded);
                assert!(bound.end >= held.end);
            }
        }
    }
    println!("held in {takes} moments");
    assert!(takes > 10_000);
}

/// Choosing once more, by trying every prefix of the pool in turn.
fn choose_by_trying(settings: &table::Settings, live: &[table::Record], hint: Option<Prefix>) -> Option<Prefix> {
    if live.len() == 256 {
        return None;
    }
    let shared = |a: Prefix, b: Prefix| {
        let (a_first, a_last) = (a.bits & mask(a.length), a.bits | !mask(a.length));
        let (b_first, b_last) = (b.bits & mask(b.length), b.bits | !mask(b.length));
        a_first <= b_last && b_first <= a_last
    };
    let free = |one: Prefix| !live.iter().any(|record| shared(record.prefix, one));
    if let Some(h) = hint {
        let inside = h.bits >= settings.pool.bits && h.bits <= (settings.pool.bits | !mask(settings.pool.length));
        let whole = (settings.shortest..=60).contains(&h.length) && h.bits.trailing_zeros() >= 128 - h.length as u32;
        if h.bits != 0 && whole && inside && free(h) {
            return Some(h);
        }
    }
    let n = hint.map_or(0, |h| h.length);
    let from = if n == 0 { settings.standard } else { n.clamp(settings.shortest, 60) };
    for length in from..=60 {
        for k in 0..1u128 << (length - settings.pool.length) {
            let one = Prefix::new(settings.pool.bits + (k << (128 - length as u32)), length);
            if free(one) {
                return Some(one);
            }
        }
    }
    None
}

#[test]
fn choosing_by_trying_every_prefix() {
    let mut r = Random::new(6);
    let (mut tried, mut none, mut places) = (0, 0, 0);
    while tried < 6_000 {
        let table = Table::read(&sound_table(&mut r)).expect("sound");
        // Pools of at most 2^14 places: the search by trying is long.
        if table.settings.pool.length < 46 {
            continue;
        }
        for _ in 0..4 {
            let tree = tree_to_box(&mut r, &table, SOLICIT);
            let text = tree.write();
            let Ok(read) = read_message(&text) else {
                continue;
            };
            let hint = read.ia_pds.first().and_then(|ia| ia.prefixes.first()).map(|listed| listed.prefix);
            let got = choose::choose(&table.settings, &table.records, hint);
            assert_eq!(got, choose_by_trying(&table.settings, &table.records, hint));
            tried += 1;
            none += got.is_none() as u32;
            places += (got.is_some() && got == hint) as u32;
        }
    }
    println!("{tried} tried, {none} without, {places} places");
    assert!(none > 50 && places > 200);
}

/// RFC 6603, 4.2, its pseudocode as it stands there.
fn rfc_6603(p1: u128, p2: u128, a: u16, b: u8) -> Vec<u8> {
    let s = 128 - a;
    assert!(b as u16 > a);
    assert!(s == 128 || p1 >> s == p2 >> s);
    let c = b as u16 - a - 1;
    let mut d = (c / 8) + 1;
    let mut p = p2 << a;
    let mut option = vec![0, 67, 0, d as u8 + 1, b];
    while d > 0 {
        option.push((p >> 120) as u8);
        p <<= 8;
        d -= 1;
    }
    option
}

#[test]
fn every_pair_of_lengths_against_rfc_6603() {
    let mut r = Random::new(8);
    for a in 0..128u8 {
        for b in a + 1..=128 {
            for own in [0, u128::MAX, r.bits()] {
                let parent = Prefix::new(r.bits() & mask(a), a);
                let excluded = Prefix::new((parent.bits | (own & !mask(a))) & mask(b), b);
                let content = encode_excluded(parent, excluded).expect("an encoding");
                assert_eq!([&[0, 67, 0, content.len() as u8][..], &content].concat(), rfc_6603(parent.bits, excluded.bits, a as u16, b));
                assert_eq!(decode_excluded(parent, &content), Ok(excluded));
                // Stray bits of the parent change nothing.
                let stray = Prefix::new(parent.bits | (r.bits() & !mask(a)), a);
                assert_eq!(decode_excluded(stray, &content), Ok(excluded));
                // Every pad bit is refused, and so is every other count of bytes.
                let pads = (content.len() - 1) * 8 - (b - a) as usize;
                for pad in 0..pads {
                    let mut bad = content.clone();
                    *bad.last_mut().unwrap() |= 1 << pad;
                    assert_eq!(decode_excluded(parent, &bad), Err(Why::ExcludePad));
                }
                assert!(decode_excluded(parent, &content[..content.len() - 1]).is_err());
                assert!(decode_excluded(parent, &[&content[..], &[0]].concat()).is_err());
            }
        }
    }
}

/// Every single byte of a table and a state, changed: refused, or another sound one in its one representation.
#[test]
fn every_byte_counts() {
    let mut r = Random::new(9);
    let state = sound_state(&mut r);
    for at in 0..STATE_BYTES {
        for bit in 0..8 {
            let mut bad = state;
            bad[at] ^= 1 << bit;
            if let Some(kept) = State::read(&bad) {
                assert!(state_bytes(&kept) == bad);
            }
        }
    }
    let mut table = sound_table(&mut r);
    while u16::from_be_bytes([table[8], table[9]]) != 3 {
        table = sound_table(&mut r);
    }
    for at in 0..TABLE_BYTES {
        let mut bad = table.clone();
        bad[at] ^= 1 << r.below(8);
        let kept = Table::read(&bad);
        assert_eq!(kept.is_some(), table_is_sound_by_ranges(&bad), "byte {at}");
        if at >= 176 + 3 * 153 {
            assert!(kept.is_none(), "byte {at}");
        }
        if let Some(kept) = kept {
            assert!(*table_bytes(&kept) == *bad);
        }
    }
}
