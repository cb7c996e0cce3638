//! The readings of reference/NOTES.md: for each the input that it names, on both sides, and what it says of the result.
//! Left out: 2, as `exclusion` is a bool in the interface and 2 isn't one; 21 to 23, which no call shows.

use crate::both::{Both, Library};
use crate::calls::Call;
use crate::tally::Tally;
use crate::world::{held_at, records, Hold};
use host::{Settings, State, Table, ROUTER, TABLE};
use reference::prefix::Prefix;
use reference::wire::{
    ia_pd_option, ia_prefix_option, option, read_message, status_option, CLIENT_ID, NO_BINDING, NO_PREFIX_AVAIL,
    OPTION_REQUEST, SERVER_ID,
};
use reference::{REBIND, RELEASE, RENEW, REPLY, REQUEST, SOLICIT};

const BOX: &[u8] = b"the box";
const HOUSE: &[u8] = b"a house";
const IAID: u32 = 7;
const ROOM: usize = 512;
/// The refusals that are looked for.
const BAD_SETTINGS: u64 = 10 << 16;

/// The pool of E7 to E11, with exclusion.
const POOL: Settings = Settings {
    pool_high: 0x2001_0db8_0000_aa00,
    pool_low: 0,
    pool_length: 56,
    shortest: 56,
    standard: 60,
    preferred: 1_800,
    valid: 3_600,
    exclusion: true,
};

/// 2001:db8:0:group::/length
fn at(group: u16, length: u8) -> Prefix {
    Prefix::new((0x2001_0db8_0000_0000 | group as u128) << 64, length)
}

// ---------------------------------------------------------------- both ends

struct Ends {
    both: Both,
}

impl Ends {
    fn start(&mut self, settings: Settings) -> (u64, Box<Table>) {
        let mut table = Box::new([0; TABLE]);
        let call = Call::BoxStart { settings, duid: BOX.to_vec(), now: 0 };
        (self.both.call(&call, &mut table[..]).0, table)
    }

    fn table(&mut self) -> Box<Table> {
        self.start(POOL).1
    }

    /// The box's answer; the refusal where it has none.
    fn served(&mut self, table: &mut Table, kind: u8, options: &[Vec<u8>]) -> Result<Vec<u8>, u64> {
        let mut message = vec![kind, 0, 0, 9];
        message.extend(option(CLIENT_ID, HOUSE).expect("short"));
        if matches!(kind, REQUEST | RENEW | RELEASE) {
            message.extend(option(SERVER_ID, BOX).expect("short"));
        }
        message.extend(options.concat());
        let (word, room) = self.both.call(&Call::BoxHandle { now: 1_000, message, room: ROOM }, &mut table[..]);
        match word >> 16 {
            0 => Ok(room[..word as usize].to_vec()),
            number => Err(number),
        }
    }

    /// A table in which the house has aa40::/58 without aa7f::/64, until 4,600.
    fn bound(&mut self) -> Box<Table> {
        let mut table = self.table();
        let asks = option(OPTION_REQUEST, &[0, 67]).expect("short");
        self.served(&mut table, REQUEST, &[asks, listing(&[listed(at(0xaa40, 58), None)])]).expect("answered");
        assert_eq!(records(&table)[0].excluded(), Some(at(0xaa7f, 64)));
        table
    }

    fn router(&mut self, state: &mut State, call: Call) -> (u64, Vec<u8>) {
        self.both.call(&call, state)
    }

    fn resent(&mut self, state: &State) -> Result<Vec<u8>, u64> {
        let (word, room) = self.router(&mut state.clone(), Call::RouterResend { now: 1_000, room: ROOM });
        match word >> 16 {
            0 => Ok(room[..word as usize].to_vec()),
            number => Err(number),
        }
    }

    /// What the router holds at 1,301 after the Reply, with these options, to what it has open.
    fn replied(&mut self, state: &mut State, options: &[Vec<u8>]) -> (u64, Option<Hold>) {
        let mut message = vec![REPLY, 0, 0, 0];
        message.extend(option(CLIENT_ID, HOUSE).expect("short"));
        message.extend(option(SERVER_ID, BOX).expect("short"));
        message.extend(options.concat());
        let word = self.router(state, Call::RouterReceive { now: 1_301, message }).0;
        (word, held_at(state, 1_301))
    }
}

fn listed(prefix: Prefix, excluded: Option<Prefix>) -> Vec<u8> {
    ia_prefix_option(0, 0, prefix, excluded).expect("an encoding")
}

fn listing(prefixes: &[Vec<u8>]) -> Vec<u8> {
    ia_pd_option(IAID, 0, 0, &prefixes.concat()).expect("short")
}

/// The house's state at 1,000, started at 900, with its first exchange (number 0) of this kind open; the server is known, and
/// aa40::/58 without aa7f::/64 is held until 4,700 and sent.
fn state(kind: u8) -> State {
    let mut state = [0; ROUTER];
    for (at, moment) in [(0, 1_000u64), (8, 900), (16, 1_000), (24, 900)] {
        state[at..at + 8].copy_from_slice(&moment.to_be_bytes());
    }
    state[35] = 1;
    state[37..41].copy_from_slice(&IAID.to_be_bytes());
    put_duid(&mut state, 41, HOUSE);
    put_duid(&mut state, 172, BOX);
    state[303] = 1;
    put_delegation(&mut state, 304);
    state[338..346].copy_from_slice(&4_700u64.to_be_bytes());
    state[346] = kind;
    if matches!(kind, RENEW | REBIND | RELEASE) {
        put_delegation(&mut state, 347);
    }
    state
}

fn put_duid(state: &mut State, at: usize, duid: &[u8]) {
    state[at] = duid.len() as u8;
    state[at + 1..at + 1 + duid.len()].copy_from_slice(duid);
}

fn put_delegation(state: &mut State, from: usize) {
    state[from..from + 16].copy_from_slice(&at(0xaa40, 58).bits.to_be_bytes());
    state[from + 16] = 58;
    state[from + 17..from + 33].copy_from_slice(&at(0xaa7f, 64).bits.to_be_bytes());
    state[from + 33] = 64;
}

// ---------------------------------------------------------------- arguments

fn reading_1(ends: &mut Ends) {
    for pool_length in [300, 256 + 56, 1 << 32 | 56, u64::MAX] {
        assert_eq!(ends.start(Settings { pool_length, ..POOL }).0, BAD_SETTINGS);
    }
}

fn reading_3(ends: &mut Ends) {
    assert_eq!(ends.start(Settings { pool_low: 1, ..POOL }).0, BAD_SETTINGS);
}

fn reading_4(ends: &mut Ends) {
    let mut table = ends.bound();
    for (index, room, word) in [(0, 153, 153), (256, 153, 0), (u64::MAX, 153, 0), (u64::MAX, 152, 2 << 16)] {
        assert_eq!(ends.both.call(&Call::BoxRecord { index, room }, &mut table[..]).0, word);
    }
}

// ---------------------------------------------------------------- sound states

/// The house's fresh state with an open Rebind, which sends ::/0.
fn bare_rebind() -> State {
    let mut state = state(REBIND);
    state[172..303].fill(0);
    state[303..346].fill(0);
    state[347..381].fill(0);
    state
}

fn reading_5(ends: &mut Ends) {
    let text = ends.resent(&bare_rebind()).expect("sound");
    assert_eq!(read_message(&text).expect("well formed").ia_pds[0].prefixes[0].prefix, Prefix::new(0, 0));
}

fn reading_6(ends: &mut Ends) {
    for kind in [RENEW, REBIND, RELEASE] {
        let mut state = state(kind);
        state[304..338].fill(0);
        state[347..381].fill(0);
        ends.resent(&state).expect("sound");
        assert_eq!(held_at(&state, 1_000), Some(Hold { prefix: Prefix::new(0, 0), excluded: None, end: 4_700 }));
    }
}

fn reading_7(ends: &mut Ends) {
    let mut state = state(0);
    state[16..24].copy_from_slice(&5u64.to_be_bytes());
    state[24..32].copy_from_slice(&7u64.to_be_bytes());
    let word = ends.router(&mut state, Call::RouterSend { kind: SOLICIT, now: 1_000, room: ROOM }).0;
    assert!(word > 0 && word >> 16 == 0);
}

fn reading_8(ends: &mut Ends) {
    let mut state = state(SOLICIT);
    state[35] = 0;
    assert_eq!(ends.resent(&state).expect("sound")[..4], [1, 255, 255, 255]);
}

/// Open 8 with released = start < began: `state` has it so. And an open Renew that sends another prefix than the held one.
fn reading_9(ends: &mut Ends) {
    ends.resent(&state(RELEASE)).expect("sound");
    let mut other = state(RENEW);
    other[347..381].fill(0);
    ends.resent(&other).expect("sound");
}

fn reading_10(ends: &mut Ends) {
    let mut state = state(0);
    state[304..338].fill(0);
    state[319] = 1;
    state[320] = 128;
    let (word, _) = ends.router(&mut state, Call::RouterHeld { now: 1_000, room: 42 });
    assert_eq!(word, 42);
    assert_eq!(held_at(&state, 1_000).expect("held").prefix, Prefix::new(1, 128));
}

// ---------------------------------------------------------------- receiving

fn granted(prefix: Prefix, status: &[u8]) -> Vec<u8> {
    let prefix = ia_prefix_option(5, 3_000, prefix, None).expect("an encoding");
    ia_pd_option(IAID, 0, 0, &[status, &prefix].concat()).expect("short")
}

fn reading_11(ends: &mut Ends) {
    let mut state = state(REQUEST);
    let (word, held) = ends.replied(&mut state, &[granted(Prefix::new(0, 0), &[])]);
    assert_eq!((word, held.expect("taken").prefix), (0, Prefix::new(0, 0)));
    let (word, room) = ends.router(&mut state, Call::RouterSend { kind: RENEW, now: 1_400, room: ROOM });
    let text = read_message(&room[..word as usize]).expect("well formed");
    assert_eq!(text.ia_pds[0].prefixes[0].prefix, Prefix::new(0, 0));
}

fn reading_12(ends: &mut Ends) {
    let option = granted(at(0xaa00, 60), &status_option(NO_PREFIX_AVAIL));
    let (word, held) = ends.replied(&mut state(REQUEST), &[option]);
    assert_eq!((word, held.expect("taken").prefix), (0, at(0xaa00, 60)));
}

fn reading_13(ends: &mut Ends) {
    let option = ia_pd_option(IAID, 5, 2, &[]).expect("short");
    assert_eq!(ends.replied(&mut state(RELEASE), &[option.clone()]).0, 0);
    assert_eq!(ends.replied(&mut state(RENEW), &[option.clone()]).0, 14 << 16);
    let mut other = state(RELEASE);
    put_duid(&mut other, 172, b"another");
    assert_eq!(ends.replied(&mut other, &[option]).0, 14 << 16);
}

fn reading_14(ends: &mut Ends) {
    for kind in [REQUEST, RENEW] {
        let option = ia_pd_option(IAID, 0, 0, &status_option(NO_BINDING)).expect("short");
        assert_eq!(ends.replied(&mut state(kind), &[option]), (0, None));
    }
}

// ---------------------------------------------------------------- the box

fn reading_15(ends: &mut Ends) {
    for (codes, excludes) in [([1, 0, 67, 1], false), ([1, 0, 0, 67], true)] {
        let mut table = ends.table();
        let asks = option(OPTION_REQUEST, &codes).expect("short");
        ends.served(&mut table, REQUEST, &[asks, listing(&[])]).expect("answered");
        assert_eq!(records(&table)[0].excludes, excludes);
    }
}

/// A Release with these prefixes frees the binding of `bound`, or leaves it as it was.
fn frees(ends: &mut Ends, prefixes: &[Vec<u8>]) -> bool {
    let mut table = ends.bound();
    let before = records(&table);
    let answer = ends.served(&mut table, RELEASE, &[listing(prefixes)]).expect("answered");
    let freed = records(&table).is_empty();
    assert_eq!(answer.ends_with(b"NoBinding"), !freed);
    assert!(freed || records(&table) == before, "a Release that fails leaves the binding, its end too");
    freed
}

fn reading_16(ends: &mut Ends) {
    let stray = Prefix::new(at(0xaa40, 58).bits | 1, 58);
    assert!(!frees(ends, &[listed(stray, None)]));
    assert!(frees(ends, &[listed(at(0xaa40, 58), None)]));
}

fn reading_17(ends: &mut Ends) {
    let other = |excluded: u16| listed(at(0xaa00, 56), Some(at(excluded, 64)));
    assert!(frees(ends, &[listed(at(0xaa40, 58), None), other(0xaa7f)]));
    assert!(!frees(ends, &[listed(at(0xaa40, 58), None), other(0xaa7e)]));
}

fn reading_18(ends: &mut Ends) {
    let mut table = ends.table();
    let answer = ends.served(&mut table, REBIND, &[listing(&[listed(Prefix::new(0, 0), None)])]).expect("answered");
    assert_eq!(read_message(&answer).expect("well formed").ia_pds[0].prefixes[0].valid, 0);
    let inside = ends.served(&mut table, REBIND, &[listing(&[listed(at(0xaa00, 60), None)])]);
    assert_eq!(inside, Err(8));
}

fn reading_19(ends: &mut Ends) {
    let (word, mut table) = ends.start(Settings { pool_high: 0, ..POOL });
    assert_eq!(word, 0);
    ends.served(&mut table, REQUEST, &[listing(&[])]).expect("answered");
    assert_eq!(records(&table)[0].prefix, Prefix::new(0, 60));
}

fn reading_20(ends: &mut Ends) {
    assert!(!frees(ends, &[listed(at(0xaa80, 58), None)]));
}

const READINGS: [fn(&mut Ends); 19] = [
    reading_1, reading_3, reading_4, reading_5, reading_6, reading_7, reading_8, reading_9, reading_10, reading_11,
    reading_12, reading_13, reading_14, reading_15, reading_16, reading_17, reading_18, reading_19, reading_20,
];

/// Each reading in turn.
pub fn run() {
    let mut ends = Ends { both: Both { tally: Tally::default() } };
    for reading in READINGS {
        reading(&mut ends);
    }
    let calls = ends.both.tally.inputs;
    println!(
        "readings: {} of reference/NOTES.md, {calls} calls on both sides: the same, and as written",
        READINGS.len()
    );
}
