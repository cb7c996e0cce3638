//! What is measured: tables, and the messages to them.

use crate::messages::{message, opening, real, Identity};
use crate::sides::{Lengths, OWN, PLAIN, PROVED};
use reference::prefix::Prefix;
use reference::wire::{ia_pd_option, ia_prefix_option, LONGEST_MESSAGE};
use reference::{TableBytes, REBIND, RECORD_BYTES, RELEASE, RENEW, REQUEST, SOLICIT, TABLE_BYTES};

const POOL: u64 = 0x2001_0db8_0000_0000;
const FIRST_RECORD: usize = 176;
/// Code and length, IAID, T1, T2.
const IA_PD_HEAD: usize = 16;
const FIRST_END: u64 = 2_000;
/// Before the time of every call.
const ENDED: u64 = 900;
const NEW: usize = 256;
/// A pool of 4,096 prefixes of the standard length.
const USUAL: Lengths = Lengths { pool: 48, shortest: 56, standard: 60 };
const WIDE: Lengths = Lengths { pool: 32, shortest: 32, standard: 32 };

/// One measured call: `pd_box_live` where the message is empty, else `pd_box_handle`.
pub struct Input {
    pub name: String,
    pub records: usize,
    /// How many of them haven't ended.
    pub live: usize,
    pub table: Box<TableBytes>,
    pub message: Vec<u8>,
    /// The refusal that it meets, 0 for an answer.
    pub refusal: u64,
}

/// A way to fill a table.
struct World {
    identities: (&'static str, fn(usize) -> Identity),
    /// Record i of n.
    order: (&'static str, fn(usize, usize) -> (u64, u8)),
    lengths: Lengths,
    /// When the first record ends; the others follow.
    first_end: u64,
    /// The record whose identity asks, of n.
    asker: fn(usize) -> usize,
}

/// A real one with an IAID of its own, from the device's address as dhclient makes it.
fn iaids(i: usize) -> Identity {
    let Identity { duid, .. } = real(i);
    let [.., a, b, c, d] = duid[..] else { unreachable!("14 bytes") };
    Identity { iaid: u32::from_be_bytes([a, b, c, d]), duid }
}

/// 130 bytes, alike but for one, in no order (and the one before it, for the identity that isn't in the table).
fn alike(i: usize, but: usize) -> Identity {
    let mut duid = vec![7; 130];
    duid[but - 1] = (i == NEW) as u8;
    duid[but] = (i as u8).wrapping_mul(97);
    Identity { iaid: 1, duid }
}

fn late(i: usize) -> Identity {
    alike(i, 120)
}

/// The byte that a comparison of two DUIDs comes to last.
fn middle(i: usize) -> Identity {
    alike(i, 97)
}

/// The last byte that the look by identity doesn't see.
fn last(i: usize) -> Identity {
    alike(i, 126)
}

/// As late ones, but a look at their ends tells all apart, save for two: it finds that out at the last record.
fn twins(i: usize) -> Identity {
    let Identity { iaid, mut duid } = late(i);
    duid[129] = if i == 255 { 254 } else { i as u8 };
    Identity { iaid, duid }
}

/// 130 bytes in which eight numbers of six bytes are one of two each, so many bytes apart.
fn forked(i: usize, first: usize, apart: usize) -> Identity {
    let mut duid = vec![7; 130];
    duid[first - 6] = (i == NEW) as u8;
    for bit in 0..8 {
        duid[first + apart * bit] = (i >> bit & 1) as u8;
    }
    Identity { iaid: 1, duid }
}

/// Two neighbours by name share much, and each merge of runs finds that they share a little more.
fn tree(i: usize) -> Identity {
    forked(i, 83, 6)
}

/// The same with every second number.
fn comb(i: usize) -> Identity {
    forked(i, 30, 12)
}

fn standard(place: usize) -> (u64, u8) {
    (POOL | (place as u64) << (64 - USUAL.standard), USUAL.standard)
}

/// In the pool's order without a gap.
fn packed(i: usize, _: usize) -> (u64, u8) {
    standard(i)
}

/// In the pool's order, the first place free.
fn ascending(i: usize, _: usize) -> (u64, u8) {
    standard(i + 1)
}

fn descending(i: usize, n: usize) -> (u64, u8) {
    standard(n - i)
}

fn shuffled(i: usize, n: usize) -> (u64, u8) {
    standard(1 + i * 97 % n)
}

/// Two lengths, shuffled: /60s side by side from the pool's begin, and as many /56s from its middle.
fn mixed(i: usize, n: usize) -> (u64, u8) {
    let place = i * 97 % n;
    if place % 2 == 0 {
        standard(place / 2)
    } else {
        (POOL | (128 + place as u64 / 2) << (64 - USUAL.shortest), USUAL.shortest)
    }
}

/// As long as a message may be, filled up with options that nobody knows and that hold nothing.
fn long(mut text: Vec<u8>) -> Vec<u8> {
    while text.len() + 4 <= LONGEST_MESSAGE {
        text.extend([0xFF, 0, 0, 0]);
    }
    text
}

/// The same before the message's own options, which are then found last.
fn long_before(text: Vec<u8>) -> Vec<u8> {
    let mut whole = long(text.clone());
    let filling = whole.split_off(text.len());
    let own = whole.split_off(4);
    [whole, filling, own].concat()
}

/// As long as it may be by an IA_PD of such options, with four IA Prefixes after them.
fn deep(kind: u8, from: &Identity, prefix: Prefix) -> Vec<u8> {
    let listed = ia_prefix_option(0, 0, prefix, None).expect("a prefix").repeat(4);
    let opening = opening(kind, from, OWN);
    let size = LONGEST_MESSAGE - opening.len() - IA_PD_HEAD - listed.len();
    let filling = [0xFF, 0, 0, 0].repeat(size / 4);
    [opening, ia_pd_option(from.iaid, 0, 0, &[filling, listed].concat()).expect("a short one")].concat()
}

/// All of the pool, in its order and as evenly as can be: no length has a free place, so each one is tried; from the
/// records' own length on every record stands in the way once, and before it the tries hit as late as can be.
fn filled(i: usize, n: usize) -> (u64, u8) {
    let places = n.next_power_of_two();
    let length = WIDE.pool + places.trailing_zeros() as u8;
    let first_wide = n - (places - n);
    let wide = i.saturating_sub(first_wide);
    (POOL | ((i + wide) as u64) << (64 - length), length - (i >= first_wide) as u8)
}

/// A started box, the same bytes on both sides.
fn empty(lengths: &Lengths) -> Box<TableBytes> {
    let mut table = Box::new([0; TABLE_BYTES]);
    let mut other = table.clone();
    assert_eq!((PROVED.start)(&mut table, POOL, lengths), 0);
    assert_eq!((PLAIN.start)(&mut other, POOL, lengths), 0);
    assert!(table == other, "started otherwise");
    table
}

fn write_record(room: &mut [u8], identity: Identity, (upper, length): (u64, u8), end: u64) {
    let duid = identity.duid;
    room[0] = duid.len() as u8;
    room[1..5].copy_from_slice(&identity.iaid.to_be_bytes());
    room[5..13].copy_from_slice(&upper.to_be_bytes());
    room[13] = length;
    room[15..23].copy_from_slice(&end.to_be_bytes());
    room[23..23 + duid.len()].copy_from_slice(&duid);
}

impl World {
    fn table(&self, n: usize) -> Box<TableBytes> {
        let mut table = empty(&self.lengths);
        table[8..10].copy_from_slice(&(n as u16).to_be_bytes());
        for (i, room) in table[FIRST_RECORD..].chunks_exact_mut(RECORD_BYTES).take(n).enumerate() {
            write_record(room, (self.identities.1)(i), (self.order.1)(i, n), if i == 0 { self.first_end } else { FIRST_END + i as u64 });
        }
        table
    }

    /// The message of a kind: from the identity of a record, or from a new one.
    fn message(&self, kind: &str, n: usize) -> Vec<u8> {
        let new = (self.identities.1)(NEW);
        let asker = (self.asker)(n);
        let bound = (self.identities.1)(asker);
        let prefix = |(upper, length): (u64, u8)| Prefix::new((upper as u128) << 64, length);
        let own = || Some(prefix((self.order.1)(asker, n)));
        match kind {
            "live" => vec![],
            "solicit-new" => message(SOLICIT, &new, OWN, None),
            "solicit-bound" => message(SOLICIT, &bound, OWN, None),
            "solicit-worst" => message(SOLICIT, &new, OWN, Some(prefix((POOL | 1 << (63 - WIDE.pool), WIDE.pool + 1)))),
            "request-new" => message(REQUEST, &new, OWN, Some(prefix(standard(0)))),
            "request-bound" => message(REQUEST, &bound, OWN, own()),
            "renew" => message(RENEW, &bound, OWN, own()),
            "renew-long" => long(message(RENEW, &bound, OWN, own())),
            "rebind" => message(REBIND, &bound, OWN, own()),
            "rebind-long" => long_before(message(REBIND, &bound, OWN, own())),
            "rebind-deep" => deep(REBIND, &bound, own().expect("a prefix")),
            "release" => message(RELEASE, &bound, OWN, own()),
            "refused-5" => [message(RENEW, &bound, OWN, own()), vec![0, 0]].concat(),
            "refused-7" => opening(SOLICIT, &new, OWN),
            _ => unreachable!("a kind of `KINDS`"),
        }
    }

    fn inputs(&self, kinds: &[&str]) -> Vec<Input> {
        let each = |kind: &&str| sizes(kind).iter().map(|&n| self.input(kind, n)).collect::<Vec<Input>>();
        kinds.iter().flat_map(each).collect()
    }

    fn input(&self, kind: &str, records: usize) -> Input {
        let name = format!("{} {} {kind}", self.identities.0, self.order.0);
        let refusal = kind.strip_prefix("refused-").map_or(0, |number| number.parse().expect("a number"));
        let live = records - (self.first_end == ENDED) as usize;
        Input { name, records, live, table: self.table(records), message: self.message(kind, records), refusal }
    }
}

/// A full table isn't walked by a choice, so the largest there has one record less.
fn sizes(kind: &str) -> &'static [usize] {
    match kind {
        "live" => &[0, 1, 16, 64, 255, 256],
        "refused-5" | "refused-7" => &[0, 16, 64, 256],
        "solicit-new" | "request-new" => &[0, 16, 64, 255],
        "solicit-worst" => &[16, 64, 255],
        _ => &[1, 16, 64, 256],
    }
}

const KINDS: [&str; 11] = [
    "live",
    "solicit-new",
    "solicit-bound",
    "request-new",
    "request-bound",
    "renew",
    "renew-long",
    "rebind",
    "release",
    "refused-5",
    "refused-7",
];

const DEAR: [&str; 6] = ["live", "renew", "renew-long", "rebind", "rebind-long", "rebind-deep"];

/// Tables and messages that were made to be dear: the last record's identity asks, as it is found last.
fn dear() -> Vec<Input> {
    let identities: [(&str, fn(usize) -> Identity); 7] =
        [("real", real), ("late", late), ("middle", middle), ("last", last), ("twins", twins), ("tree", tree), ("comb", comb)];
    let mut all = Vec::new();
    for identities in identities {
        for (name, first_end) in [("mixed", FIRST_END), ("mixed-ended", ENDED)] {
            let world = World { identities, order: (name, mixed), lengths: USUAL, first_end, asker: |n| n - 1 };
            all.extend(DEAR.map(|kind| world.input(kind, 256)));
        }
    }
    all
}

/// Everything that is measured.
pub fn inputs() -> Vec<Input> {
    let mut all = Vec::new();
    let identities: [(&str, fn(usize) -> Identity); 3] = [("real", real), ("iaids", iaids), ("late", late)];
    let orders: [(&str, fn(usize, usize) -> (u64, u8)); 4] =
        [("ascending", ascending), ("descending", descending), ("shuffled", shuffled), ("mixed", mixed)];
    for identities in identities {
        for order in orders {
            let every = order.0 == "ascending" && identities.0 != "iaids";
            let kinds = if every { &KINDS[..] } else { &["live"] };
            all.extend(World { identities, order, lengths: USUAL, first_end: FIRST_END, asker: |n| n / 2 }.inputs(kinds));
        }
    }
    let real = |order, lengths| World { identities: identities[0], order, lengths, first_end: FIRST_END, asker: |n| n / 2 };
    all.extend(real(("packed", packed), USUAL).inputs(&["live", "solicit-new"]));
    all.extend(real(("filled", filled), WIDE).inputs(&["live", "solicit-worst"]));
    all.extend(dear());
    all
}
