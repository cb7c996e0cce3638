//! A small deterministic generator: tables, states, messages and times, sound and damaged.
//!
//! The same seed gives the same values for ever; nothing here reads a clock. Messages are built as trees of options
//! whose declared lengths and left-over bytes can be wrong on purpose, so damage reaches every depth.

use crate::prefix::{encode_excluded, mask, Prefix};
use crate::router::{Delegation, Hold, Open, State};
use crate::table::{Duid, Record, Settings, Table, MOST_RECORDS};
use crate::wire::{
    CLIENT_ID, IA_PD, IA_PREFIX, LONGEST_MESSAGE, NO_BINDING, NO_PREFIX_AVAIL, OPTION_REQUEST, PD_EXCLUDE, SERVER_ID,
    STATUS_CODE, SUCCESS,
};
use crate::{
    StateBytes, TableBytes, ADVERTISE, END_LIMIT, FOR_EVER, NEVER, REBIND, RECORD_BYTES, RELEASE, RENEW, REPLY,
    REQUEST, SOLICIT, STATE_BYTES, TABLE_BYTES, TIME_LIMIT,
};

/// xorshift64*, seeded.
#[derive(Clone, Debug)]
pub struct Random(u64);

impl Random {
    pub fn new(seed: u64) -> Random {
        // Spread the seed, so that neighbouring seeds give unlike sequences; the state is never 0.
        let mut x = seed.wrapping_add(0x9E37_79B9_7F4A_7C15);
        x = (x ^ (x >> 30)).wrapping_mul(0xBF58_476D_1CE4_E5B9);
        x = (x ^ (x >> 27)).wrapping_mul(0x94D0_49BB_1331_11EB);
        Random((x ^ (x >> 31)) | 1)
    }

    pub fn word(&mut self) -> u64 {
        self.0 ^= self.0 >> 12;
        self.0 ^= self.0 << 25;
        self.0 ^= self.0 >> 27;
        self.0.wrapping_mul(0x2545_F491_4F6C_DD1D)
    }

    /// From 0 to n-1; n is at least 1.
    pub fn below(&mut self, n: u64) -> u64 {
        (self.word() >> 11) % n
    }

    /// From a to b, both included.
    pub fn from_to(&mut self, a: u64, b: u64) -> u64 {
        a + self.below(b - a + 1)
    }

    /// True once in n times.
    pub fn once_in(&mut self, n: u64) -> bool {
        self.below(n) == 0
    }

    pub fn pick<T: Copy>(&mut self, from: &[T]) -> T {
        from[self.below(from.len() as u64) as usize]
    }

    pub fn bits(&mut self) -> u128 {
        ((self.word() as u128) << 64) | self.word() as u128
    }

    pub fn bytes(&mut self, n: usize) -> Vec<u8> {
        (0..n).map(|_| self.word() as u8).collect()
    }
}

// ---------------------------------------------------------------------------------------------------------------
// Values

/// A good DUID. Few letters, so that some differ only in their last byte, in their length, or in closing zeros.
pub fn duid(r: &mut Random) -> Vec<u8> {
    let length = match r.below(6) {
        0 => r.pick(&[3, 4, 129, 130, 130, 130]),
        1 => r.from_to(3, 130),
        2 => 10,
        3 => 14,
        _ => r.from_to(3, 6),
    } as usize;
    if r.once_in(3) {
        return r.bytes(length);
    }
    let letter = r.pick(&[0u8, 1, 255]);
    let mut bytes = vec![letter; length];
    let last = r.below(4) as u8;
    bytes[length - 1] = last;
    if r.once_in(2) {
        bytes[0] = r.below(4) as u8;
    }
    bytes
}

/// A DUID of any length from 0 to 140, mostly near the bounds 3 and 130.
pub fn duid_of_any_length(r: &mut Random) -> Vec<u8> {
    let length = match r.below(3) {
        0 => r.pick(&[0usize, 1, 2, 3, 4]),
        1 => r.pick(&[128usize, 129, 130, 131, 132]),
        _ => r.from_to(0, 140) as usize,
    };
    r.bytes(length)
}

/// Something very like that DUID, but another: a byte changed, a byte more, a byte less, other closing zeros.
pub fn another_duid(r: &mut Random, like: &[u8]) -> Vec<u8> {
    let mut other = like.to_vec();
    match r.below(5) {
        0 => other.push(0),
        1 => other.push(r.word() as u8),
        2 => {
            other.pop();
        }
        _ => {
            if other.is_empty() {
                other.push(1);
            } else {
                let at = r.below(other.len() as u64) as usize;
                other[at] ^= 1 << r.below(8);
            }
        }
    }
    other
}

pub fn iaid(r: &mut Random) -> u32 {
    match r.below(4) {
        0 => r.word() as u32,
        1 => r.pick(&[0, 1, 0xFFFF_FFFF, 0x0100_0000, 0x8000_0000]),
        _ => r.below(3) as u32,
    }
}

/// A lifetime, with the edges: 0, 1, 119 to 121, the greatest finite one, for ever.
pub fn lifetime(r: &mut Random) -> u32 {
    match r.below(4) {
        0 => r.pick(&[0, 1, 119, 120, 121, 0x7FFF_FFFF, 0x8000_0000, FOR_EVER - 2, FOR_EVER - 1, FOR_EVER]),
        1 => r.word() as u32,
        _ => r.below(4_000) as u32,
    }
}

/// A moment below 2^48, with the edges.
pub fn moment(r: &mut Random) -> u64 {
    match r.below(5) {
        0 => r.pick(&[0, 1, 60, 61, 999, 1_000, TIME_LIMIT - 1, TIME_LIMIT - 2, TIME_LIMIT - 61, TIME_LIMIT - 62]),
        1 => r.below(TIME_LIMIT),
        _ => r.from_to(0, 10_000),
    }
}

/// An end below 2^49 or never, most of them near `last`.
pub fn end(r: &mut Random, last: u64) -> u64 {
    match r.below(8) {
        0 => NEVER,
        1 => r.pick(&[0, 1, 1_000, END_LIMIT - 1, END_LIMIT - 2, TIME_LIMIT - 1, TIME_LIMIT, TIME_LIMIT + 1]),
        2 => last.saturating_sub(r.below(3)),
        3 => r.below(END_LIMIT),
        _ => last + r.below(4_000),
    }
}

/// Good settings.
pub fn settings(r: &mut Random) -> Settings {
    let pool_length = match r.below(4) {
        0 => r.pick(&[32u64, 33, 55, 56]),
        1 => 56,
        _ => r.from_to(32, 56),
    } as u8;
    let bits = match r.below(6) {
        0 => 0,
        1 => u128::MAX,
        2 | 3 => 0x2001_0db8_0000_aa00_0000_0000_0000_0000,
        _ => r.bits(),
    } & mask(pool_length);
    let shortest = if r.once_in(3) { pool_length } else { r.from_to(pool_length as u64, 60) as u8 };
    let standard = if r.once_in(3) { 60 } else { r.from_to(shortest as u64, 60) as u8 };
    let valid = match r.below(5) {
        0 => FOR_EVER,
        1 => r.pick(&[120, 121, FOR_EVER - 1]),
        2 => r.from_to(120, FOR_EVER as u64) as u32,
        _ => r.from_to(120, 4_000) as u32,
    };
    let preferred = match r.below(3) {
        0 => valid,
        1 => r.pick(&[120, 121]).min(valid),
        _ => r.from_to(120, valid as u64) as u32,
    };
    Settings {
        pool: Prefix::new(bits, pool_length),
        shortest,
        standard,
        preferred,
        valid,
        exclusion: !r.once_in(3),
        duid: Duid::new(&duid(r)).expect("a good DUID"),
    }
}

/// A random prefix of this length inside the pool.
pub fn inside(r: &mut Random, pool: Prefix, length: u8) -> Prefix {
    Prefix::new((pool.bits | (r.bits() & !mask(pool.length))) & mask(length), length)
}

// ---------------------------------------------------------------------------------------------------------------
// Arguments of the starts

/// The arguments of `pd_box_start` after the table.
#[derive(Clone, Debug)]
pub struct BoxStart {
    pub pool_high: u64,
    pub pool_low: u64,
    pub pool_length: u8,
    pub shortest: u8,
    pub standard: u8,
    pub preferred: u32,
    pub valid: u32,
    pub exclusion: u8,
    pub duid: Vec<u8>,
    pub now: u64,
}

impl BoxStart {
    pub fn call(&self, table: &mut TableBytes) -> u64 {
        crate::pd_box_start(
            table,
            self.pool_high,
            self.pool_low,
            self.pool_length,
            self.shortest,
            self.standard,
            self.preferred,
            self.valid,
            self.exclusion,
            &self.duid,
            self.now,
        )
    }
}

/// Good arguments in half of the cases, else with one or two of them at or over an edge.
pub fn box_start(r: &mut Random) -> BoxStart {
    let good = settings(r);
    let mut start = BoxStart {
        pool_high: (good.pool.bits >> 64) as u64,
        pool_low: 0,
        pool_length: good.pool.length,
        shortest: good.shortest,
        standard: good.standard,
        preferred: good.preferred,
        valid: good.valid,
        exclusion: good.exclusion as u8,
        duid: good.duid.own().to_vec(),
        now: moment(r),
    };
    if r.once_in(2) {
        return start;
    }
    for _ in 0..r.from_to(1, 2) {
        match r.below(11) {
            0 => start.pool_high ^= 1 << r.below(64),
            1 => start.pool_low = 1 << r.below(64),
            2 => start.pool_length = r.pick(&[0, 31, 32, 56, 57, 60, 64, 128, 255]),
            3 => start.shortest = r.pick(&[0, 31, start.pool_length.wrapping_sub(1), start.standard.wrapping_add(1), 61]),
            4 => start.standard = r.pick(&[0, start.shortest.wrapping_sub(1), 60, 61, 64, 255]),
            5 => start.preferred = r.pick(&[0, 119, 120, start.valid, start.valid.wrapping_add(1), FOR_EVER]),
            6 => start.valid = r.pick(&[0, 119, start.preferred, start.preferred.wrapping_sub(1), FOR_EVER]),
            7 => start.exclusion = r.pick(&[0, 1, 2, 255]),
            8 => start.duid = duid_of_any_length(r),
            9 => start.now = r.pick(&[TIME_LIMIT - 1, TIME_LIMIT, TIME_LIMIT + 1, u64::MAX]),
            _ => start.pool_length = r.word() as u8,
        }
    }
    start
}

/// The arguments of `pd_router_start` after the state.
#[derive(Clone, Debug)]
pub struct RouterStart {
    pub duid: Vec<u8>,
    pub iaid: u32,
    pub wanted: u8,
    pub now: u64,
}

impl RouterStart {
    pub fn call(&self, state: &mut StateBytes) -> u64 {
        crate::pd_router_start(state, &self.duid, self.iaid, self.wanted, self.now)
    }
}

pub fn router_start(r: &mut Random) -> RouterStart {
    let mut start = RouterStart { duid: duid(r), iaid: iaid(r), wanted: wanted(r), now: moment(r) };
    if r.once_in(3) {
        start.duid = duid_of_any_length(r);
    }
    if r.once_in(4) {
        start.wanted = r.pick(&[63, 64, 65, 128, 255]);
    }
    if r.once_in(6) {
        start.now = r.pick(&[TIME_LIMIT - 1, TIME_LIMIT, u64::MAX]);
    }
    start
}

fn wanted(r: &mut Random) -> u8 {
    match r.below(3) {
        0 => r.pick(&[0, 0, 1, 63, 64]),
        1 => r.from_to(48, 62) as u8,
        _ => r.from_to(0, 64) as u8,
    }
}

// ---------------------------------------------------------------------------------------------------------------
// Tables

/// A sound table: nearly empty, scattered, packed to the last prefix, or with 256 records.
pub fn sound_table(r: &mut Random) -> Box<TableBytes> {
    let table = sound(r);
    debug_assert!(table.is_sound());
    table_bytes(&table)
}

/// Any records at all, sound or not, in the layout. (At most 256 of them.)
pub fn table_bytes(table: &Table) -> Box<TableBytes> {
    let mut bytes = Box::new([0u8; TABLE_BYTES]);
    table.write(&mut bytes);
    bytes
}

fn sound(r: &mut Random) -> Table {
    let settings = settings(r);
    let last = moment(r);
    let mut prefixes: Vec<Prefix> = Vec::new();
    let most = match r.below(8) {
        0 => 0,
        1 => 256,
        2 => r.pick(&[254u64, 255, 256]),
        3 => r.from_to(0, 256),
        _ => r.from_to(0, 12),
    } as usize;
    if r.once_in(2) {
        // Scattered.
        for _ in 0..most * 2 {
            if prefixes.len() == most {
                break;
            }
            let length = r.from_to(settings.shortest as u64, 60) as u8;
            let one = inside(r, settings.pool, length);
            if prefixes.iter().all(|other| !other.overlaps(one)) {
                prefixes.push(one);
            }
        }
    } else {
        // Packed from the front of the pool, with or without gaps, most of it in long prefixes so that many fit.
        let gaps = r.once_in(2);
        let most = if r.once_in(2) { MOST_RECORDS } else { most };
        let one_length = r.once_in(3).then(|| r.from_to(settings.shortest as u64, 60) as u8);
        let first = settings.pool.bits >> 64;
        let end = first + (1u128 << (64 - settings.pool.length as u32));
        let mut place = first;
        while prefixes.len() < most {
            let length = one_length.unwrap_or_else(|| {
                let from = if r.once_in(4) { settings.shortest } else { settings.shortest.max(57) };
                r.from_to(from as u64, 60) as u8
            });
            let size = 1u128 << (64 - length as u32);
            place = place.div_ceil(size) * size;
            if place >= end {
                break;
            }
            if !gaps || !r.once_in(5) {
                prefixes.push(Prefix::new(place << 64, length));
            }
            place += size;
        }
    }
    // Bound in any order.
    for i in (1..prefixes.len()).rev() {
        prefixes.swap(i, r.below(i as u64 + 1) as usize);
    }
    let mut records: Vec<Record> = Vec::new();
    let ended = r.once_in(3);
    for prefix in prefixes {
        let (duid, iaid) = loop {
            let own = if !records.is_empty() && r.once_in(3) {
                // A neighbour of one that stands: the same DUID, or one nearly so.
                let other = records[r.below(records.len() as u64) as usize].duid.own().to_vec();
                if r.once_in(2) {
                    other
                } else {
                    another_duid(r, &other)
                }
            } else {
                duid(r)
            };
            let iaid = iaid(r);
            if let Some(duid) = Duid::new(&own) {
                if !records.iter().any(|record| record.is_of(&own, iaid)) {
                    break (duid, iaid);
                }
            }
        };
        let end = if ended { end(r, last) } else { end(r, last).max(last + 1 + r.below(2_000)) };
        records.push(Record { duid, iaid, prefix, excludes: settings.exclusion && r.once_in(2), end });
    }
    Table { last, settings, records }
}

/// One bit of the bytes changed.
fn flip(r: &mut Random, bytes: &mut [u8]) {
    let at = r.below(bytes.len() as u64) as usize;
    bytes[at] ^= 1 << r.below(8);
}

/// A table that isn't sound, or seldom is: one byte changed anywhere, the count changed, an overlap, an identity
/// twice, or one rule of soundness broken by a hair. (A changed byte may leave it sound: an IAID's byte, say.)
pub fn damaged_table(r: &mut Random, sound: &TableBytes) -> Box<TableBytes> {
    let mut bytes = Box::new(*sound);
    let Some(mut table) = Table::read(sound) else {
        return bytes;
    };
    let count = table.records.len();
    let used = 176 + RECORD_BYTES * count;
    match r.below(14) {
        0 => {
            flip(r, &mut bytes[..]);
            return bytes;
        }
        1 => {
            let at = r.below(used as u64) as usize;
            bytes[at] = r.word() as u8;
            return bytes;
        }
        2 => {
            flip(r, &mut bytes[..176]);
            return bytes;
        }
        3 => {
            // A byte past the last record, near it or at the very end.
            let at = if r.once_in(2) { TABLE_BYTES - 1 } else { used + r.below(RECORD_BYTES as u64) as usize };
            if at < TABLE_BYTES {
                bytes[at] ^= 1 << r.below(8);
            }
            return bytes;
        }
        4 => {
            let other = r.pick(&[count as u16 + 1, (count as u16).wrapping_sub(1), 257, 256, 0, 0xFFFF]);
            bytes[8..10].copy_from_slice(&other.to_be_bytes());
            return bytes;
        }
        5 => {
            // A byte after a DUID.
            let (at, length) = if count == 0 || r.once_in(3) {
                (31, table.settings.duid.length() as usize)
            } else {
                let i = r.below(count as u64) as usize;
                (176 + RECORD_BYTES * i + 23, table.records[i].duid.length() as usize)
            };
            if length < 130 {
                bytes[at + r.from_to(length as u64, 129) as usize] = r.from_to(1, 255) as u8;
            } else {
                bytes[at - 1] = 131;
            }
            return bytes;
        }
        6 => {
            // A length of a DUID.
            let at = if count == 0 || r.once_in(3) { 30 } else { 176 + RECORD_BYTES * r.below(count as u64) as usize };
            bytes[at] = r.pick(&[0, 2, 3, 130, 131, 255, bytes[at].wrapping_add(1), bytes[at].wrapping_sub(1)]);
            return bytes;
        }
        7 => table.last = r.pick(&[TIME_LIMIT, TIME_LIMIT - 1, u64::MAX]),
        8 => {
            let s = &mut table.settings;
            match r.below(8) {
                0 => s.pool.length = r.pick(&[31, 57, 32, 56]),
                1 => s.shortest = s.pool.length - 1,
                2 => s.standard = s.shortest - 1,
                3 => s.standard = 61,
                4 => s.preferred = 119,
                5 => s.valid = s.preferred - 1,
                6 => s.exclusion = false,
                _ => s.shortest = r.pick(&[61, s.standard + 1, s.standard]),
            }
        }
        9 if count > 0 => {
            let i = r.below(count as u64) as usize;
            table.records[i].end = r.pick(&[END_LIMIT, END_LIMIT - 1, NEVER - 1, NEVER, 1 << 63]);
        }
        10 if count > 0 => {
            let i = r.below(count as u64) as usize;
            let length = table.records[i].prefix.length;
            let s = table.settings;
            let record = &mut table.records[i];
            match r.below(6) {
                0 => record.prefix.length = 61,
                1 => record.prefix.length = s.shortest - 1,
                2 => record.prefix.bits ^= 1 << (127 - length as u32),
                3 => record.prefix.bits ^= 1 << (128 - s.pool.length as u32),
                4 => record.excludes = true,
                _ => record.prefix.length = length.wrapping_add(r.pick(&[1, 255])),
            }
        }
        11 if count > 0 => {
            bytes[176 + RECORD_BYTES * r.below(count as u64) as usize + 14] = r.pick(&[0, 1, 2, 255]);
            return bytes;
        }
        12 if count > 1 => {
            // An overlap: equal, inside, or over.
            let (i, j) = two(r, count);
            let over = table.records[i].prefix;
            let shortest = table.settings.shortest;
            let length = match r.below(3) {
                0 => over.length,
                1 => r.from_to(over.length as u64, 60) as u8,
                _ => r.from_to(shortest as u64, over.length as u64) as u8,
            };
            let fill = r.bits() & !mask(over.length);
            table.records[j].prefix = Prefix::new((over.bits | fill) & mask(length), length);
        }
        _ if count > 1 => {
            // An identity twice.
            let (i, j) = two(r, count);
            table.records[j].duid = table.records[i].duid;
            table.records[j].iaid = table.records[i].iaid;
        }
        _ => table.settings.preferred = r.pick(&[0, 119]),
    }
    table_bytes(&table)
}

fn two(r: &mut Random, count: usize) -> (usize, usize) {
    let i = r.below(count as u64) as usize;
    let j = (i + 1 + r.below(count as u64 - 1) as usize) % count;
    (i, j)
}

// ---------------------------------------------------------------------------------------------------------------
// States

/// A delegation with zero bits after its length and, with its excluded prefix or none, an encoding.
pub fn delegation(r: &mut Random) -> Delegation {
    let length = match r.below(4) {
        0 => r.pick(&[0u64, 1, 63, 64, 120, 127, 128]),
        1 => r.from_to(0, 128),
        _ => r.from_to(32, 60),
    } as u8;
    let bits = if r.once_in(8) { 0 } else { r.bits() };
    let prefix = Prefix::new(bits & mask(length), length);
    let excluded = if length < 128 && !r.once_in(3) { Some(excluded_in(r, prefix)) } else { None };
    Delegation { prefix, excluded }
}

/// An excluded prefix that has an encoding in the parent, whose length is under 128.
fn excluded_in(r: &mut Random, parent: Prefix) -> Prefix {
    let a = parent.length as u64;
    let b = match r.below(4) {
        0 => a + 1,
        1 => 128,
        2 if a < 64 => 64,
        _ => r.from_to(a + 1, 128),
    } as u8;
    let own = if r.once_in(4) { u128::MAX } else { r.bits() };
    Prefix::new(((parent.bits & mask(parent.length)) | (own & !mask(parent.length))) & mask(b), b)
}

/// A sound state, reachable or not.
pub fn sound_state(r: &mut Random) -> StateBytes {
    let state = sound_router(r);
    debug_assert!(state.is_sound());
    state_bytes(&state)
}

/// Any state at all, sound or not, in the layout.
pub fn state_bytes(state: &State) -> StateBytes {
    let mut bytes = [0u8; STATE_BYTES];
    state.write(&mut bytes);
    bytes
}

fn sound_router(r: &mut Random) -> State {
    let last = moment(r);
    let earlier = |r: &mut Random| match r.below(4) {
        0 => last,
        1 => last.saturating_sub(r.from_to(58, 63)),
        2 => r.from_to(0, last),
        _ => last.saturating_sub(r.below(200)),
    };
    let start = earlier(r);
    let (began, released) = if r.once_in(4) {
        // Also in an order that no life has.
        (earlier(r), earlier(r))
    } else {
        (earlier(r).max(start), if r.once_in(2) { start } else { earlier(r).max(start) })
    };
    let server = (!r.once_in(4)).then(|| Duid::new(&duid(r)).expect("a good DUID"));
    let held = (server.is_some() && !r.once_in(3)).then(|| Hold { delegation: delegation(r), end: end(r, last) });
    let kind = match (server.is_some(), r.below(9)) {
        (_, 0) => SOLICIT,
        (true, 1) => REQUEST,
        (true, 2) => RENEW,
        (true, 3) => REBIND,
        (true, 4) => RELEASE,
        (false, 1) => SOLICIT,
        // Not reachable, but sound: a Rebind sends no server.
        (false, 3) => REBIND,
        _ => 0,
    };
    let sent = match (kind, held) {
        (RENEW | REBIND, Some(held)) if !r.once_in(5) => Some(held.delegation),
        (RENEW | REBIND | RELEASE, _) => Some(delegation(r)),
        _ => None,
    };
    State {
        last,
        start,
        began,
        released,
        next: match r.below(4) {
            0 => r.pick(&[0, 1, (1 << 24) - 1, (1 << 24) - 2]),
            1 => r.below(1 << 24) as u32,
            _ => r.below(300) as u32,
        },
        wanted: wanted(r),
        iaid: iaid(r),
        duid: Duid::new(&duid(r)).expect("a good DUID"),
        server,
        held,
        open: (kind != 0).then_some(Open { kind, sent }),
    }
}

/// A state that isn't sound, or seldom is.
pub fn damaged_state(r: &mut Random, sound: &StateBytes) -> StateBytes {
    let mut bytes = *sound;
    let Some(mut state) = State::read(sound) else {
        return bytes;
    };
    match r.below(16) {
        0..=2 => {
            flip(r, &mut bytes[..]);
            return bytes;
        }
        3 => {
            let at = r.below(STATE_BYTES as u64) as usize;
            bytes[at] = r.word() as u8;
            return bytes;
        }
        4 => {
            bytes[r.from_to(381, 383) as usize] = r.from_to(1, 255) as u8;
            return bytes;
        }
        5 => {
            // A byte after a DUID, the server's too where none is known.
            let (at, length) = if r.once_in(2) { (42, bytes[41]) } else { (173, bytes[172]) };
            if length < 130 {
                bytes[at + r.from_to(length as u64, 129) as usize] = r.from_to(1, 255) as u8;
            } else {
                bytes[at - 1] = 131;
            }
            return bytes;
        }
        6 => {
            let at = r.pick(&[41, 172]);
            bytes[at] = r.pick(&[0, 1, 2, 3, 130, 131, 255, bytes[at].wrapping_add(1), bytes[at].wrapping_sub(1)]);
            return bytes;
        }
        7 => {
            bytes[303] = r.pick(&[0, 1, 2, 255]);
            return bytes;
        }
        8 => {
            bytes[346] = r.pick(&[0, 1, 2, 3, 4, 5, 6, 7, 8, 9, 255]);
            return bytes;
        }
        9 => {
            let at = r.from_to(304, 380) as usize;
            bytes[at] ^= 1 << r.below(8);
            return bytes;
        }
        10 => {
            // Lengths in the hold or in what is sent: the prefix's, the excluded one's.
            let at = r.pick(&[320, 337, 363, 380]);
            bytes[at] = r.pick(&[0, 1, 64, 128, 129, 255, bytes[at].wrapping_add(1), bytes[at].wrapping_sub(1)]);
            return bytes;
        }
        11 => match r.below(4) {
            0 => state.last = r.pick(&[TIME_LIMIT, TIME_LIMIT - 1, u64::MAX]),
            1 => state.start = state.last + r.below(2),
            2 => state.began = state.last + r.below(2),
            _ => state.released = state.last + r.below(2),
        },
        12 => state.next = r.pick(&[(1 << 24) - 1, 1 << 24, (1 << 24) + 1, u32::MAX]),
        13 => state.wanted = r.pick(&[64, 65, 128, 255]),
        14 => match &mut state.held {
            Some(held) => held.end = r.pick(&[END_LIMIT, END_LIMIT - 1, NEVER, NEVER - 1, 1 << 63]),
            None => state.next = 1 << 24,
        },
        _ => {
            // The server taken away from what needs it.
            state.server = None;
        }
    }
    state_bytes(&state)
}

// ---------------------------------------------------------------------------------------------------------------
// Times

/// A time for a call on this table: refused, at the edges, or later.
pub fn table_time(r: &mut Random, table: &TableBytes) -> u64 {
    let Some(table) = Table::read(table) else {
        return moment(r);
    };
    if !table.records.is_empty() && r.once_in(3) {
        let end = table.records[r.below(table.records.len() as u64) as usize].end;
        let time = around(r, end.min(END_LIMIT));
        if (time >= table.last && time < TIME_LIMIT) || r.once_in(20) {
            return time;
        }
    }
    time_after(r, table.last)
}

/// A time for a call on this state: round its waits, its end, its last time, 2^48.
pub fn state_time(r: &mut Random, state: &StateBytes) -> u64 {
    let Some(state) = State::read(state) else {
        return moment(r);
    };
    let time = match r.below(8) {
        0 => state.start + r.pick(&[0, 1, 59, 60, 61, 62]),
        1 => state.released + r.pick(&[0, 1, 59, 60, 61, 62]),
        2 => around(r, state.began),
        3 => match state.held {
            Some(held) if held.end != NEVER => around(r, held.end),
            _ => time_after(r, state.last),
        },
        4 | 5 => state.last + r.from_to(61, 100),
        _ => time_after(r, state.last),
    };
    if (time < state.last || time >= TIME_LIMIT) && !r.once_in(8) {
        return (state.last + r.from_to(0, 70)).min(TIME_LIMIT - 1);
    }
    time
}

fn around(r: &mut Random, moment: u64) -> u64 {
    (moment + r.below(3)).saturating_sub(1)
}

fn time_after(r: &mut Random, last: u64) -> u64 {
    match r.below(12) {
        0 if r.once_in(2) => last.saturating_sub(1),
        1 => last,
        2 => last + 1,
        3 if r.once_in(2) => r.pick(&[TIME_LIMIT - 1, TIME_LIMIT, TIME_LIMIT + 1, u64::MAX, 0]),
        4 => last + r.pick(&[59, 60, 61, 62]),
        5 if r.once_in(2) => last + r.below(1 << 33),
        _ => last + r.below(400),
    }
}

/// A length for lent room round its bound.
pub fn room(r: &mut Random, bound: usize) -> usize {
    match r.below(12) {
        0 => bound - 1,
        1 => bound + 1,
        2 => r.from_to(0, 2 * bound as u64) as usize,
        _ => bound,
    }
}

// ---------------------------------------------------------------------------------------------------------------
// Messages

/// An option as a tree: a fixed part, options, and stray bytes; the declared length may be off.
#[derive(Clone, Debug)]
pub struct Node {
    pub code: u16,
    pub head: Vec<u8>,
    pub inner: Vec<Node>,
    pub tail: Vec<u8>,
    pub off: i32,
}

impl Node {
    pub fn leaf(code: u16, content: &[u8]) -> Node {
        Node { code, head: content.to_vec(), inner: Vec::new(), tail: Vec::new(), off: 0 }
    }

    pub fn write(&self, text: &mut Vec<u8>) {
        text.extend_from_slice(&self.code.to_be_bytes());
        let at = text.len();
        text.extend_from_slice(&[0, 0]);
        text.extend_from_slice(&self.head);
        for node in &self.inner {
            node.write(text);
        }
        text.extend_from_slice(&self.tail);
        let length = (text.len() - at - 2) as i32 + self.off;
        text[at..at + 2].copy_from_slice(&(length as u16).to_be_bytes());
    }
}

/// A whole message as a tree.
#[derive(Clone, Debug)]
pub struct Tree {
    pub kind: u8,
    pub transaction: u32,
    pub options: Vec<Node>,
    pub tail: Vec<u8>,
}

impl Tree {
    pub fn write(&self) -> Vec<u8> {
        let mut text = vec![self.kind];
        text.extend_from_slice(&self.transaction.to_be_bytes()[1..]);
        for node in &self.options {
            node.write(&mut text);
        }
        text.extend_from_slice(&self.tail);
        text
    }
}

pub fn ia_pd_node(iaid: u32, t1: u32, t2: u32, inner: Vec<Node>) -> Node {
    let mut head = iaid.to_be_bytes().to_vec();
    head.extend_from_slice(&t1.to_be_bytes());
    head.extend_from_slice(&t2.to_be_bytes());
    Node { code: IA_PD, head, inner, tail: Vec::new(), off: 0 }
}

pub fn ia_prefix_node(preferred: u32, valid: u32, prefix: Prefix, inner: Vec<Node>) -> Node {
    let mut head = preferred.to_be_bytes().to_vec();
    head.extend_from_slice(&valid.to_be_bytes());
    head.push(prefix.length);
    head.extend_from_slice(&prefix.bits.to_be_bytes());
    Node { code: IA_PREFIX, head, inner, tail: Vec::new(), off: 0 }
}

pub fn exclude_node(parent: Prefix, excluded: Prefix) -> Option<Node> {
    Some(Node::leaf(PD_EXCLUDE, &encode_excluded(parent, excluded)?))
}

fn status_node(r: &mut Random) -> Node {
    let mut content = r.pick(&[SUCCESS, 1, 2, NO_BINDING, 4, 5, NO_PREFIX_AVAIL, 7, 0x0600, 0xFFFF]).to_be_bytes().to_vec();
    if r.once_in(2) {
        content.extend_from_slice(r.pick(&[&b""[..], b"Success", b"NoBinding", b"NoPrefixAvail", b"\0"]));
    }
    Node::leaf(STATUS_CODE, &content)
}

fn unknown_node(r: &mut Random) -> Node {
    let length = r.below(6) as usize;
    let code = r.pick(&[0u16, 3, 5, 7, 8, 14, 17, 27, 66, 68, 0x0100, 0x1900, 0x4300, 0xFFFF]);
    Node::leaf(code, &r.bytes(length))
}

fn option_request_node(r: &mut Random, asks: bool) -> Node {
    let mut content = Vec::new();
    for _ in 0..r.below(4) {
        // Near misses too: 67 read at an odd place, or with its bytes turned round.
        content.extend_from_slice(&r.pick(&[0u16, 23, 66, 68, 0x4300, 0x0043 << 4, 25]).to_be_bytes());
    }
    if asks {
        let at = 2 * r.below(content.len() as u64 / 2 + 1) as usize;
        content.splice(at..at, PD_EXCLUDE.to_be_bytes());
    } else if r.once_in(6) {
        content.extend_from_slice(&[1, 0, 67, 1]);
    }
    Node::leaf(OPTION_REQUEST, &content)
}

/// A prefix that a message to this box may list, near to `own` (the sender's binding) where there is one.
fn listed_prefix(r: &mut Random, table: &Table, own: Option<&Record>) -> Prefix {
    let s = &table.settings;
    let some_record = |r: &mut Random| table.records[r.below(table.records.len() as u64) as usize].prefix;
    match r.below(14) {
        0..=3 if own.is_some() => own.expect("some").prefix,
        4 if own.is_some() => {
            // Nearly the binding: another length, or one bit.
            let mut near = own.expect("some").prefix;
            match r.below(3) {
                0 => near.length += 1,
                1 => near.length -= 1,
                _ => near.bits ^= 1 << r.below(128),
            }
            near
        }
        5 if !table.records.is_empty() => some_record(r),
        6 if !table.records.is_empty() => {
            // Over or under a live one.
            let one = some_record(r);
            let length = r.from_to(s.shortest as u64, 60) as u8;
            Prefix::new(one.bits & mask(length), length)
        }
        7 => Prefix::new(0, r.pick(&[0, 1, 31, s.pool.length, s.shortest, s.standard, 59, 60, 61, 64, 127, 128])),
        8 => Prefix::new(0, r.from_to(s.shortest as u64, 60) as u8),
        9 => {
            // The pool itself, just under its length, or just beside it.
            let length = r.pick(&[s.pool.length, s.pool.length - 1, s.pool.length + 1, 0, 128]);
            let beside = if r.once_in(2) { 1u128 << (128 - s.pool.length as u32) } else { 0 };
            Prefix::new(s.pool.bits ^ beside, length)
        }
        10 => {
            // A stray bit after the length.
            let length = r.from_to(s.shortest as u64, 60) as u8;
            let mut one = inside(r, s.pool, length);
            one.bits |= 1 << r.below(128 - length as u64);
            one
        }
        11 => {
            let length = r.from_to(0, 128) as u8;
            Prefix::new(r.bits() & mask(length), length)
        }
        12 => {
            let length = r.pick(&[s.shortest - 1, s.shortest, 60, 61, 64, 128]);
            inside(r, s.pool, length.max(s.pool.length))
        }
        _ => {
            let length = r.from_to(s.shortest as u64, 60) as u8;
            inside(r, s.pool, length)
        }
    }
}

fn outside_prefix(r: &mut Random, table: &Table) -> Prefix {
    let pool = table.settings.pool;
    let length = r.from_to(0, 128) as u8;
    let bits = pool.bits ^ (1u128 << (127 - r.below(pool.length as u64) as u32)) ^ (r.bits() & !mask(pool.length));
    if r.once_in(2) {
        Prefix::new(bits & mask(length), length)
    } else {
        Prefix::new(bits, length)
    }
}

fn listed_node(r: &mut Random, prefix: Prefix, own: Option<&Record>) -> Node {
    let mut inner = Vec::new();
    let own_excluded = own.and_then(|record| record.excluded());
    match r.below(6) {
        0..=2 => {
            if let Some(node) = own_excluded.and_then(|excluded| exclude_node(prefix, excluded)) {
                inner.push(node);
            }
        }
        3 if prefix.length < 128 => {
            let excluded = excluded_in(r, prefix);
            inner.extend(exclude_node(prefix, excluded));
        }
        4 if prefix.length < 64 => inner.extend(exclude_node(prefix, prefix.last_64())),
        _ => {}
    }
    if r.once_in(10) {
        inner.push(status_node(r));
    }
    if r.once_in(10) {
        let at = r.below(inner.len() as u64 + 1) as usize;
        inner.insert(at, unknown_node(r));
    }
    let (preferred, valid) = if r.once_in(2) { (0, 0) } else { (lifetime(r), lifetime(r)) };
    ia_prefix_node(preferred, valid, prefix, inner)
}

/// A well-formed message of a served kind for this box, nearly always with its row whole; sometimes with a fault of
/// row (6) or count (7).
pub fn tree_to_box(r: &mut Random, table: &Table, kind: u8) -> Tree {
    let s = &table.settings;
    // Who sends: an identity of the table, one nearly so, or a new one.
    let own = (!table.records.is_empty() && !r.once_in(3))
        .then(|| table.records[r.below(table.records.len() as u64) as usize]);
    let (client, ia) = match own {
        Some(record) => match r.below(12) {
            0 => (another_duid(r, record.duid.own()), record.iaid),
            1 => (record.duid.own().to_vec(), record.iaid ^ (1 << r.below(32))),
            _ => (record.duid.own().to_vec(), record.iaid),
        },
        None => (duid(r), iaid(r)),
    };
    let count = match r.below(8) {
        0 => 0,
        1 => r.from_to(0, 6),
        2 => 4,
        3 => 2,
        4 if r.once_in(2) => 5,
        _ => 1,
    };
    let all_outside = kind == REBIND && r.once_in(2);
    let mut listed = Vec::new();
    if let (RELEASE, Some(own), true) = (kind, &own, r.once_in(2)) {
        // The very binding, with its excluded prefix or without, alone or among others.
        let inner = own.excluded().filter(|_| !r.once_in(3)).and_then(|excluded| exclude_node(own.prefix, excluded));
        listed.push(ia_prefix_node(0, 0, own.prefix, inner.into_iter().collect()));
    }
    for _ in listed.len() as u64..count {
        let prefix =
            if all_outside && !r.once_in(12) { outside_prefix(r, table) } else { listed_prefix(r, table, own.as_ref()) };
        listed.push(listed_node(r, prefix, own.as_ref()));
    }
    if r.once_in(8) {
        let at = r.below(listed.len() as u64 + 1) as usize;
        listed.insert(at, status_node(r));
    }
    if r.once_in(8) {
        let at = r.below(listed.len() as u64 + 1) as usize;
        listed.insert(at, unknown_node(r));
    }
    let (t1, t2) = if r.once_in(2) { (0, 0) } else { (lifetime(r), lifetime(r)) };
    let mut options = vec![Node::leaf(CLIENT_ID, &client)];
    if matches!(kind, REQUEST | RENEW | RELEASE) {
        options.push(Node::leaf(SERVER_ID, s.duid.own()));
    }
    if kind != RELEASE && !r.once_in(3) || r.once_in(12) {
        let asks = !r.once_in(3);
        options.push(option_request_node(r, asks));
        if r.once_in(10) {
            let asks = r.once_in(2);
            options.push(option_request_node(r, asks));
        }
    }
    options.push(ia_pd_node(ia, t1, t2, listed));
    if r.once_in(8) {
        options.push(status_node(r));
    }
    if r.once_in(6) {
        options.push(unknown_node(r));
    }
    if r.once_in(3) {
        shuffle(r, &mut options);
    }
    if r.once_in(10) {
        spoil_identities(r, &mut options, s.duid.own());
    }
    if r.once_in(25) {
        // None, or several IA_PDs.
        if r.once_in(3) {
            options.retain(|node| node.code != IA_PD);
        } else {
            let prefix = listed_prefix(r, table, own.as_ref());
            let second = listed_node(r, prefix, own.as_ref());
            let other_iaid = iaid(r);
            options.push(ia_pd_node(other_iaid, 0, 0, vec![second]));
        }
    }
    Tree { kind, transaction: r.below(1 << 24) as u32, options, tail: Vec::new() }
}

/// Client and Server IDs of every length, missing, twice, or nearly right.
fn spoil_identities(r: &mut Random, options: &mut Vec<Node>, server: &[u8]) {
    let code = r.pick(&[CLIENT_ID, SERVER_ID]);
    match r.below(5) {
        0 => options.retain(|node| node.code != code),
        1 => {
            if let Some(node) = options.iter().find(|node| node.code == code).cloned() {
                options.push(node);
            }
        }
        2 => {
            let content = duid_of_any_length(r);
            for node in options.iter_mut().filter(|node| node.code == code) {
                node.head = content.clone();
            }
        }
        3 => {
            for node in options.iter_mut().filter(|node| node.code == code) {
                node.head = another_duid(r, &node.head);
            }
        }
        _ => options.push(Node::leaf(SERVER_ID, server)),
    }
}

fn shuffle(r: &mut Random, options: &mut [Node]) {
    for i in (1..options.len()).rev() {
        options.swap(i, r.below(i as u64 + 1) as usize);
    }
}

/// A message to this box: valid, nearly valid, or damaged.
pub fn message_to_box(r: &mut Random, table: &TableBytes) -> Vec<u8> {
    let table = Table::read(table).unwrap_or_else(|| sound(r));
    let kind = r.pick(&[SOLICIT, REQUEST, REQUEST, RENEW, REBIND, RELEASE]);
    let tree = tree_to_box(r, &table, kind);
    finish(r, tree)
}

/// A message to this router at now: the one awaited, one that nearly is, or a damaged one.
pub fn message_to_router(r: &mut Random, state: &StateBytes, now: u64) -> Vec<u8> {
    let state = State::read(state).unwrap_or_else(|| sound_router(r));
    let tree = tree_to_router(r, &state, now);
    finish(r, tree)
}

/// A well-formed message to this router, mostly the one awaited.
pub fn tree_to_router(r: &mut Random, state: &State, now: u64) -> Tree {
    let open = state.open.map_or(0, |open| open.kind);
    let mut kind = if open == SOLICIT { ADVERTISE } else { REPLY };
    if r.once_in(30) {
        kind = r.pick(&[ADVERTISE, REPLY, SOLICIT, 10, 13, 0]);
    }
    let number = (state.next + (1 << 24) - 1) % (1 << 24);
    let transaction = if r.once_in(30) { r.pick(&[state.next, number ^ 1, 0, r.0 as u32 & 0xFF_FFFF]) } else { number };

    let client = if r.once_in(30) { another_duid(r, state.duid.own()) } else { state.duid.own().to_vec() };
    let bound_server = matches!(open, REQUEST | RENEW | RELEASE);
    let server = match (&state.server, r.below(if bound_server { 25 } else { 3 })) {
        (Some(known), 1..) => known.own().to_vec(),
        (Some(known), _) if r.once_in(2) => another_duid(r, known.own()),
        _ => duid(r),
    };
    let mut options = vec![Node::leaf(CLIENT_ID, &client), Node::leaf(SERVER_ID, &server)];
    if open == RELEASE || r.once_in(8) {
        let status = if r.once_in(2) { Node::leaf(STATUS_CODE, b"\0\0Success") } else { quiet_status(r, open) };
        options.push(status);
    }
    if open != RELEASE || r.once_in(3) {
        let count = match r.below(6) {
            0 => r.from_to(0, 6),
            1 => 2,
            2 if r.once_in(12) => 36,
            _ => 1,
        };
        let mut inner = Vec::new();
        for _ in 0..count {
            inner.push(granted_node(r, state, now, open));
        }
        if r.once_in(8) {
            let at = r.below(inner.len() as u64 + 1) as usize;
            let status = quiet_status(r, open);
            inner.insert(at, status);
        }
        if r.once_in(8) {
            let at = r.below(inner.len() as u64 + 1) as usize;
            inner.insert(at, unknown_node(r));
        }
        let (t1, t2) = match r.below(6) {
            0 => r.pick(&[(0, 0), (1, 0), (2, 1), (1, 1), (1, 2), (FOR_EVER, 0), (FOR_EVER, FOR_EVER - 1)]),
            1 => (lifetime(r), lifetime(r)),
            _ => r.pick(&[(0, 0), (60, 96), (FOR_EVER, FOR_EVER), (0, 5)]),
        };
        let ia = if r.once_in(30) { state.iaid ^ (1 << r.below(32)) } else { state.iaid };
        options.push(ia_pd_node(ia, t1, t2, inner));
        if r.once_in(40) {
            let again = iaid(r);
            options.push(ia_pd_node(again, 0, 0, Vec::new()));
        }
    }
    if r.once_in(8) {
        options.push(unknown_node(r));
    }
    if r.once_in(3) {
        shuffle(r, &mut options);
    }
    if r.once_in(20) {
        spoil_identities(r, &mut options, &server);
    }
    Tree { kind, transaction, options, tail: Vec::new() }
}

/// A status; NoPrefixAvail seldom in what answers a Solicit, where it decides.
fn quiet_status(r: &mut Random, open: u8) -> Node {
    let node = status_node(r);
    if open == SOLICIT && node.head.starts_with(&NO_PREFIX_AVAIL.to_be_bytes()) && r.once_in(2) {
        return Node::leaf(STATUS_CODE, &SUCCESS.to_be_bytes());
    }
    node
}

/// An IA Prefix for a router: lifetimes round what makes it taken, ended or passed by.
fn granted_node(r: &mut Random, state: &State, now: u64, open: u8) -> Node {
    let mut one = match (state.held, r.below(3)) {
        (Some(held), 0) => held.delegation,
        _ => delegation(r),
    };
    if r.once_in(8) && one.prefix.length < 128 {
        one.prefix.bits |= 1 << r.below(128 - one.prefix.length as u64);
    }
    let passed = now.saturating_sub(state.began).min(FOR_EVER as u64 - 2) as u32;
    let valid = match r.below(6) {
        0 => 0,
        1 => passed.saturating_sub(1) + r.below(3) as u32,
        2 => FOR_EVER,
        3 => lifetime(r),
        _ => passed.saturating_add(r.from_to(1, 4_000) as u32),
    };
    let preferred = match r.below(6) {
        0 => valid.saturating_add(1),
        1 => valid,
        2 => lifetime(r),
        _ => valid / 2,
    };
    let mut inner = Vec::new();
    if let Some(excluded) = one.excluded {
        inner.extend(exclude_node(one.prefix, excluded));
    }
    if r.once_in(10) {
        let at = r.below(inner.len() as u64 + 1) as usize;
        let status = quiet_status(r, open);
        inner.insert(at, status);
    }
    if r.once_in(12) {
        let at = r.below(inner.len() as u64 + 1) as usize;
        inner.insert(at, unknown_node(r));
    }
    ia_prefix_node(preferred, valid, one.prefix, inner)
}

/// Writes the tree: as it is in two of three cases, else damaged once or more.
fn finish(r: &mut Random, mut tree: Tree) -> Vec<u8> {
    if !r.once_in(3) {
        let text = tree.write();
        return if r.once_in(20) { stretched(r, tree) } else { text };
    }
    for _ in 0..r.pick(&[1, 1, 1, 2, 3]) {
        damage(r, &mut tree);
    }
    let mut text = tree.write();
    match r.below(16) {
        0 => text.truncate(r.below(text.len() as u64 + 1) as usize),
        1 => {
            let at = r.below(text.len() as u64) as usize;
            text[at] ^= 1 << r.below(8);
        }
        2 => return stretched(r, tree),
        3 => {
            // Nothing but bytes.
            let length = r.from_to(0, 40) as usize;
            text = r.bytes(length);
        }
        4 => {
            // As many options as fit: 307 empty ones.
            let code = r.pick(&[CLIENT_ID, SERVER_ID, OPTION_REQUEST, IA_PREFIX, PD_EXCLUDE, 14]);
            while text.len() + 4 <= LONGEST_MESSAGE {
                Node::leaf(code, &[]).write(&mut text);
            }
        }
        _ => {}
    }
    text
}

/// The message brought to 1,231, 1,232 or 1,233 bytes by an option that nobody reads.
fn stretched(r: &mut Random, mut tree: Tree) -> Vec<u8> {
    let length = tree.write().len();
    let goal = r.pick(&[1_231usize, 1_232, 1_232, 1_233, 1_236, 1_500]);
    if length + 4 <= goal {
        let filler = Node::leaf(17, &vec![0xA5; goal - length - 4]);
        // Unread in any area.
        let target = match tree.options.iter_mut().find(|node| node.code == IA_PD) {
            Some(ia) if r.once_in(2) => &mut ia.inner,
            _ => &mut tree.options,
        };
        target.push(filler);
    }
    tree.write()
}

/// The area at a random depth: the message's own, an IA_PD's, an IA Prefix's.
fn area<'t>(r: &mut Random, tree: &'t mut Tree) -> &'t mut Vec<Node> {
    let depth = r.below(3);
    let mut here = &mut tree.options;
    for code in [IA_PD, IA_PREFIX].into_iter().take(depth as usize) {
        let places: Vec<usize> = (0..here.len()).filter(|&i| here[i].code == code).collect();
        if places.is_empty() {
            break;
        }
        let at = r.pick(&places);
        here = &mut here[at].inner;
    }
    here
}

fn some_place(r: &mut Random, nodes: &[Node]) -> usize {
    r.below(nodes.len() as u64 + 1) as usize
}

/// One damage at a random depth.
pub fn damage(r: &mut Random, tree: &mut Tree) {
    match r.below(19) {
        // A length off by one, or by more.
        0..=2 => {
            let off = r.pick(&[-1, 1, -1, 1, 2, -4, 4, 255]);
            if let Some(node) = some_node(r, tree) {
                node.off = off;
            }
        }
        // Bytes left over: one to three are malformed, four may be an option.
        3 | 4 => {
            let count = r.from_to(1, 4) as usize;
            let bytes = if r.once_in(2) { vec![0; count] } else { r.bytes(count) };
            if r.once_in(3) {
                tree.tail = bytes;
            } else if let Some(node) = some_node(r, tree) {
                node.tail = bytes;
            }
        }
        // An option at a wrong level.
        5 | 6 => {
            let nodes = area(r, tree);
            if !nodes.is_empty() {
                let at = r.below(nodes.len() as u64) as usize;
                let node = if r.once_in(2) { nodes.remove(at) } else { nodes[at].clone() };
                let target = area(r, tree);
                let at = some_place(r, target);
                target.insert(at, node);
            }
        }
        // Twice.
        7 => {
            let nodes = area(r, tree);
            if !nodes.is_empty() {
                let node = nodes[r.below(nodes.len() as u64) as usize].clone();
                let at = some_place(r, nodes);
                nodes.insert(at, node);
            }
        }
        // Gone.
        8 => {
            let nodes = area(r, tree);
            if !nodes.is_empty() {
                let at = r.below(nodes.len() as u64) as usize;
                nodes.remove(at);
            }
        }
        // A PD Exclude: a pad bit, another length, a byte more or less, twice (equal or not), or a fresh bad one.
        9..=12 => spoil_exclude(r, tree),
        // A prefix length at its bound.
        13 => {
            if let Some(node) = deep(r, tree, IA_PREFIX) {
                if node.head.len() > 8 {
                    node.head[8] = r.pick(&[127, 128, 129, 255, 0]);
                }
            }
        }
        // A Status Code anywhere, short ones too.
        14 => {
            let length = r.below(4) as usize;
            let node = if r.once_in(2) { Node::leaf(STATUS_CODE, &r.bytes(length)) } else { status_node(r) };
            let nodes = area(r, tree);
            let at = some_place(r, nodes);
            nodes.insert(at, node);
        }
        // An empty or short option of a known code anywhere.
        15 => {
            let code = r.pick(&[CLIENT_ID, SERVER_ID, OPTION_REQUEST, STATUS_CODE, IA_PD, IA_PREFIX, PD_EXCLUDE]);
            let length = r.pick(&[0, 0, 1, 2, 11, 12, 13, 16, 24, 25, 26, 29]);
            let content = if r.once_in(2) { vec![0; length] } else { r.bytes(length) };
            let nodes = area(r, tree);
            let at = some_place(r, nodes);
            nodes.insert(at, Node::leaf(code, &content));
        }
        // A fixed part cut by a byte or longer by one; an IA_PD cut anywhere.
        16 if r.once_in(3) => {
            if let Some(node) = deep(r, tree, IA_PD) {
                node.head.truncate(r.pick(&[0, 4, 8, 11, 12]));
                if r.once_in(2) {
                    node.inner.clear();
                }
            }
        }
        16 => {
            if let Some(node) = some_node(r, tree) {
                if r.once_in(2) {
                    node.head.pop();
                } else {
                    node.head.push(0);
                }
            }
        }
        // One bit of a fixed part.
        17 => {
            if let Some(node) = some_node(r, tree) {
                if !node.head.is_empty() {
                    let at = r.below(node.head.len() as u64) as usize;
                    node.head[at] ^= 1 << r.below(8);
                }
            }
        }
        // Another type.
        _ => tree.kind = r.pick(&[0, 1, 2, 3, 4, 5, 6, 7, 8, 9, 10, 11, 12, 13, 255]),
    }
}

fn some_node<'t>(r: &mut Random, tree: &'t mut Tree) -> Option<&'t mut Node> {
    let nodes = area(r, tree);
    if nodes.is_empty() {
        return None;
    }
    let at = r.below(nodes.len() as u64) as usize;
    Some(&mut nodes[at])
}

/// Some node with this code, in the area where it is read.
fn deep<'t>(r: &mut Random, tree: &'t mut Tree, code: u16) -> Option<&'t mut Node> {
    let mut here = &mut tree.options;
    for wanted in [IA_PD, IA_PREFIX, PD_EXCLUDE] {
        let places: Vec<usize> = (0..here.len()).filter(|&i| here[i].code == wanted).collect();
        if places.is_empty() {
            return None;
        }
        let at = r.pick(&places);
        if wanted == code {
            return Some(&mut here[at]);
        }
        here = &mut here[at].inner;
    }
    None
}

fn spoil_exclude(r: &mut Random, tree: &mut Tree) {
    let Some(parent) = deep(r, tree, IA_PREFIX) else {
        return;
    };
    if parent.head.len() < 25 {
        return;
    }
    let a = parent.head[8];
    let there = parent.inner.iter().position(|node| node.code == PD_EXCLUDE);
    let at = match there {
        Some(at) => at,
        None => {
            // A new one, good or at an edge: b from a to 129.
            let b = r.pick(&[a, a.wrapping_add(1), a.wrapping_add(8), a.wrapping_add(9), 64, 128, 129]);
            let need = (b.saturating_sub(a) as usize).div_ceil(8);
            let mut content = vec![b];
            content.extend(std::iter::repeat_n(0, need.min(17)));
            parent.inner.push(Node::leaf(PD_EXCLUDE, &content));
            parent.inner.len() - 1
        }
    };
    let node = &mut parent.inner[at];
    match r.below(8) {
        0 | 1 => {
            // A pad bit: the last bit, if it is one.
            if let Some(last) = node.head.last_mut() {
                *last |= 1 << r.below(3);
            }
        }
        2 => {
            if !node.head.is_empty() {
                let b = node.head[0];
                node.head[0] = r.pick(&[a, b.wrapping_add(1), b.wrapping_sub(1), 0, 128, 129, 255]);
            }
        }
        3 => node.head.push(0),
        4 => {
            node.head.pop();
        }
        5 => node.head.clear(),
        6 => {
            let again = node.clone();
            parent.inner.push(again);
        }
        _ => {
            let mut again = node.clone();
            if again.head.len() > 1 {
                again.head[1] ^= 0x80;
            }
            parent.inner.insert(0, again);
        }
    }
}
