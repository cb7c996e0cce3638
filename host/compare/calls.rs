//! One call of the interface as a value, and how each side carries it out.

use host::Settings;
use reference::{REBIND, RELEASE, RENEW, REQUEST, SOLICIT};

/// A call with everything that it is given but the lent table or state. `room` is the length of the lent room.
#[derive(Clone, Debug)]
pub enum Call {
    BoxStart { settings: Settings, duid: Vec<u8>, now: u64 },
    BoxHandle { now: u64, message: Vec<u8>, room: usize },
    BoxLive { now: u64 },
    BoxRecord { index: u64, room: usize },
    RouterStart { duid: Vec<u8>, iaid: u32, wanted: u64, now: u64 },
    RouterSend { kind: u8, now: u64, room: usize },
    RouterResend { now: u64, room: usize },
    RouterAbandon { now: u64 },
    RouterReceive { now: u64, message: Vec<u8> },
    RouterHeld { now: u64, room: usize },
}

/// The operations, in the header's order, each with the refusals that it has. (Nothing forbids a Solicit: no 13.)
pub const OPERATIONS: [(&str, &[u64]); 14] = [
    ("pd_box_start", &[10, 1]),
    ("pd_box_handle", &[9, 1, 2, 3, 4, 5, 6, 7, 8]),
    ("pd_box_live", &[9, 1]),
    ("pd_box_record", &[9, 2]),
    ("pd_router_start", &[10, 1]),
    ("pd_router_solicit", &[9, 1, 2, 11, 12]),
    ("pd_router_request", &[9, 1, 2, 11, 12, 13]),
    ("pd_router_renew", &[9, 1, 2, 11, 12, 13]),
    ("pd_router_rebind", &[9, 1, 2, 11, 12, 13]),
    ("pd_router_release", &[9, 1, 2, 11, 12, 13]),
    ("pd_router_resend", &[9, 1, 2, 13]),
    ("pd_router_abandon", &[9, 1, 13]),
    ("pd_router_receive", &[9, 1, 14]),
    ("pd_router_held", &[9, 1, 2]),
];

impl Call {
    /// Its place in `OPERATIONS`.
    pub fn operation(&self) -> usize {
        match self {
            Call::BoxStart { .. } => 0,
            Call::BoxHandle { .. } => 1,
            Call::BoxLive { .. } => 2,
            Call::BoxRecord { .. } => 3,
            Call::RouterStart { .. } => 4,
            Call::RouterSend { kind: SOLICIT, .. } => 5,
            Call::RouterSend { kind: REQUEST, .. } => 6,
            Call::RouterSend { kind: RENEW, .. } => 7,
            Call::RouterSend { kind: REBIND, .. } => 8,
            Call::RouterSend { .. } => 9,
            Call::RouterResend { .. } => 10,
            Call::RouterAbandon { .. } => 11,
            Call::RouterReceive { .. } => 12,
            Call::RouterHeld { .. } => 13,
        }
    }

    /// The length of the lent room, 0 where none is lent.
    pub fn room(&self) -> usize {
        match self {
            Call::BoxHandle { room, .. }
            | Call::BoxRecord { room, .. }
            | Call::RouterSend { room, .. }
            | Call::RouterResend { room, .. }
            | Call::RouterHeld { room, .. } => *room,
            _ => 0,
        }
    }
}

/// One way to carry out a call: on the lent table or state, and on the lent room.
pub type Side = fn(&Call, &mut [u8], &mut [u8]) -> u64;

fn exact<const N: usize>(lent: &mut [u8]) -> &mut [u8; N] {
    lent.try_into().expect("a table or a state")
}

/// The proved library.
pub fn proved(call: &Call, lent: &mut [u8], room: &mut [u8]) -> u64 {
    match call {
        Call::BoxStart { settings, duid, now } => host::box_start(exact(lent), settings, duid, *now),
        Call::BoxHandle { now, message, .. } => host::box_handle(exact(lent), *now, message, room),
        Call::BoxLive { now } => host::box_live(exact(lent), *now),
        Call::BoxRecord { index, .. } => host::box_record(exact(lent), *index, room),
        Call::RouterStart { duid, iaid, wanted, now } => host::router_start(exact(lent), duid, *iaid, *wanted, *now),
        Call::RouterSend { kind, now, .. } => {
            let send = match *kind {
                SOLICIT => host::router_solicit,
                REQUEST => host::router_request,
                RENEW => host::router_renew,
                REBIND => host::router_rebind,
                RELEASE => host::router_release,
                other => unreachable!("no router sends type {other}"),
            };
            send(exact(lent), *now, room)
        }
        Call::RouterResend { now, .. } => host::router_resend(exact(lent), *now, room),
        Call::RouterAbandon { now } => host::router_abandon(exact(lent), *now),
        Call::RouterReceive { now, message } => host::router_receive(exact(lent), *now, message),
        Call::RouterHeld { now, .. } => host::router_held(exact(lent), *now, room),
    }
}

/// The independent implementation. It takes lengths as bytes; 255 stands for a greater one, as both are bad in each place.
pub fn plain(call: &Call, lent: &mut [u8], room: &mut [u8]) -> u64 {
    match call {
        Call::BoxStart { settings, duid, now } => plain_start(exact(lent), settings, duid, *now),
        Call::BoxHandle { now, message, .. } => reference::pd_box_handle(exact(lent), *now, message, room),
        Call::BoxLive { now } => reference::pd_box_live(exact(lent), *now),
        Call::BoxRecord { index, .. } => reference::pd_box_record(exact(lent), *index, room),
        Call::RouterStart { duid, iaid, wanted, now } => {
            reference::pd_router_start(exact(lent), duid, *iaid, as_byte(*wanted), *now)
        }
        Call::RouterSend { kind, now, .. } => {
            let send = match *kind {
                SOLICIT => reference::pd_router_solicit,
                REQUEST => reference::pd_router_request,
                RENEW => reference::pd_router_renew,
                REBIND => reference::pd_router_rebind,
                RELEASE => reference::pd_router_release,
                other => unreachable!("no router sends type {other}"),
            };
            send(exact(lent), *now, room)
        }
        Call::RouterResend { now, .. } => reference::pd_router_resend(exact(lent), *now, room),
        Call::RouterAbandon { now } => reference::pd_router_abandon(exact(lent), *now),
        Call::RouterReceive { now, message } => reference::pd_router_receive(exact(lent), *now, message),
        Call::RouterHeld { now, .. } => reference::pd_router_held(exact(lent), *now, room),
    }
}

fn as_byte(length: u64) -> u8 {
    length.min(255) as u8
}

fn plain_start(table: &mut host::Table, s: &Settings, duid: &[u8], now: u64) -> u64 {
    reference::pd_box_start(
        table,
        s.pool_high,
        s.pool_low,
        as_byte(s.pool_length),
        as_byte(s.shortest),
        as_byte(s.standard),
        s.preferred,
        s.valid,
        s.exclusion as u8,
        duid,
        now,
    )
}
