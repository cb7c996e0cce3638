//! Part 1: generated inputs to every operation, on both sides.

use crate::both::{Both, Library};
use crate::calls::Call;
use crate::mutate;
use crate::tally::Tally;
use crate::world::World;
use host::{Settings, State, Table};
use reference::generate::{
    box_start, damaged_state, damaged_table, message_to_box, message_to_router, router_start, sound_state, sound_table,
    state_time, table_time, Random,
};
use reference::{REBIND, RELEASE, RENEW, REQUEST, SOLICIT};

const KINDS: [u8; 5] = [SOLICIT, REQUEST, RENEW, REBIND, RELEASE];
/// Lengths of lent room, at and round every bound.
const ROOMS: [usize; 14] = [0, 1, 41, 42, 43, 152, 153, 154, 511, 512, 513, 600, 1_232, 2_000];
/// Calls on one table before another is made.
const TABLE_CALLS: u64 = 12;
/// Steps of one history: enough for a router to start, wait and be given a prefix.
const HISTORY_STEPS: u64 = 300;

/// As many inputs as asked for, or a few more.
pub fn run(seed: u64, inputs: u64) -> Tally {
    let mut both = Both { tally: Tally::default() };
    let mut r = Random::new(seed);
    while both.tally.inputs < inputs {
        match r.below(24) {
            0..=4 => starts(&mut r, &mut both),
            5..=8 => boxes(&mut r, &mut both),
            9 => history(&mut r, &mut both),
            _ => routers(&mut r, &mut both),
        }
    }
    both.tally
}

/// Room of the usual length three times in four, else of any.
fn room(r: &mut Random, usual: usize) -> usize {
    if r.once_in(4) {
        r.pick(&ROOMS)
    } else {
        usual
    }
}

// ---------------------------------------------------------------- starts

/// Lengths too great for a byte, one of which would be good in the lowest one.
fn far(r: &mut Random, length: u8) -> u64 {
    if r.once_in(12) {
        r.pick(&[256 + length as u64, 1 << 32 | length as u64, u64::MAX, 1 << 63])
    } else {
        length as u64
    }
}

/// A start of each end, over anything.
fn starts(r: &mut Random, both: &mut Both) {
    let s = box_start(r);
    let settings = Settings {
        pool_high: s.pool_high,
        pool_low: s.pool_low,
        pool_length: far(r, s.pool_length),
        shortest: far(r, s.shortest),
        standard: far(r, s.standard),
        preferred: s.preferred,
        valid: s.valid,
        exclusion: s.exclusion & 1 == 1,
    };
    let mut table = mutate::any_table(r);
    both.call(&Call::BoxStart { settings, duid: s.duid, now: s.now }, &mut table[..]);
    for _ in 0..4 {
        let s = router_start(r);
        let mut state = mutate::any_state(r);
        let wanted = far(r, s.wanted);
        both.call(&Call::RouterStart { duid: s.duid, iaid: s.iaid, wanted, now: s.now }, &mut state);
    }
}

// ---------------------------------------------------------------- the box

/// One sound table, used and damaged.
fn boxes(r: &mut Random, both: &mut Both) {
    let mut table = sound_table(r);
    for _ in 0..TABLE_CALLS {
        if r.once_in(4) {
            let mut damaged = unsound(r, &table);
            box_call(r, both, &table, &mut damaged);
        } else {
            let before = table.clone();
            box_call(r, both, &before, &mut table);
        }
    }
}

/// The table damaged by a byte, by a field, by a record; or arbitrary.
fn unsound(r: &mut Random, table: &Table) -> Box<Table> {
    match r.below(6) {
        0 => mutate::any_table(r),
        1 | 2 => {
            let mut table = Box::new(*table);
            mutate::record(r, &mut table);
            table
        }
        _ => damaged_table(r, table),
    }
}

/// One call on `lent`, made for `table`.
fn box_call(r: &mut Random, both: &mut Both, table: &Table, lent: &mut Table) {
    let now = table_time(r, table);
    let call = match r.below(8) {
        0 => Call::BoxLive { now },
        1 => Call::BoxRecord { index: index(r, table), room: room(r, 153) },
        _ => Call::BoxHandle { now, message: message_to_box(r, table), room: room(r, 512) },
    };
    both.call(&call, &mut lent[..]);
}

/// A place in the table, at its edges, or far out.
fn index(r: &mut Random, table: &Table) -> u64 {
    let count = u16::from_be_bytes([table[8], table[9]]) as u64;
    match r.below(3) {
        0 => r.pick(&[0, count, count.wrapping_sub(1), 255, 256, 257, 65_536, 1 << 32, u64::MAX]),
        _ => r.below(count + 1),
    }
}

// ---------------------------------------------------------------- the router

/// One sound state, used and damaged.
fn routers(r: &mut Random, both: &mut Both) {
    let mut state = sound_state(r);
    for _ in 0..6 {
        if r.once_in(3) {
            let mut damaged = unsound_state(r, &state);
            router_call(r, both, &state, &mut damaged);
        } else {
            let before = state;
            router_call(r, both, &before, &mut state);
        }
    }
}

/// The state damaged by a byte or by a field; or arbitrary.
fn unsound_state(r: &mut Random, state: &State) -> State {
    match r.below(6) {
        0 => mutate::any_state(r),
        1 | 2 => {
            let (mut state, other) = (*state, sound_state(r));
            mutate::field(r, &mut state, &other);
            state
        }
        _ => damaged_state(r, state),
    }
}

/// One call on `lent`, made for `state`.
fn router_call(r: &mut Random, both: &mut Both, state: &State, lent: &mut State) {
    let now = state_time(r, state);
    let call = match r.below(10) {
        0..=3 => Call::RouterReceive { now, message: message_to_router(r, state, now) },
        4 => Call::RouterHeld { now, room: room(r, 42) },
        5 => Call::RouterResend { now, room: room(r, 512) },
        6 => Call::RouterAbandon { now },
        _ => Call::RouterSend { kind: r.pick(&KINDS), now, room: room(r, 512) },
    };
    both.call(&call, lent);
}

// ---------------------------------------------------------------- histories

/// A box and several routers talking. What was sent is also changed and brought to copies of the ends, at times damaged.
fn history(r: &mut Random, both: &mut Both) {
    let mut world = World::new(Random::new(r.word()), both, 6);
    for _ in 0..HISTORY_STEPS {
        world.step();
        let now = world.now;
        let Some((sent, mut table, mut state)) = world.some_message() else {
            continue;
        };
        let message = if r.once_in(5) { sent.message } else { mutate::message(r, &sent.message) };
        if r.once_in(8) {
            table = unsound(r, &table);
            state = unsound_state(r, &state);
        }
        if sent.to_box != r.once_in(8) {
            let room = room(r, 512);
            world.library().call(&Call::BoxHandle { now, message, room }, &mut table[..]);
        } else {
            world.library().call(&Call::RouterReceive { now, message }, &mut state);
        }
    }
}
