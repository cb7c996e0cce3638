//! The router: the requesting side.

use crate::prefix::{encode_excluded, Prefix};
use crate::table::{yes_or_no, Duid};
use crate::wire::{
    ia_pd_option, ia_prefix_option, option, read_message, u128_at, u32_at, u64_at, CLIENT_ID, NO_PREFIX_AVAIL,
    OPTION_REQUEST, PD_EXCLUDE, SERVER_ID,
};
use crate::{
    done, end_of, refused, StateBytes, ADVERTISE, END_LIMIT, HOLD_BYTES, NEVER, REBIND, RELEASE, RENEW, REPLY,
    REQUEST, ROOM_BYTES, SOLICIT, TIME_LIMIT,
};

const NUMBERS: u32 = 1 << 24;
const WAIT: u64 = 60;
const LONGEST_WANTED: u8 = 64;
const DELEGATION_BYTES: usize = 34;

/// A prefix with its excluded prefix or none.
#[derive(Clone, Copy, PartialEq, Eq, Debug)]
pub struct Delegation {
    pub prefix: Prefix,
    pub excluded: Option<Prefix>,
}

impl Delegation {
    /// Zero bits after its length and, with its excluded prefix or none, an encoding.
    pub fn is_good(&self) -> bool {
        self.prefix.length <= 128
            && self.prefix.is_clean()
            && self.excluded.is_none_or(|excluded| encode_excluded(self.prefix, excluded).is_some())
    }

    pub fn read(bytes: &[u8]) -> Option<Delegation> {
        let prefix = Prefix::new(u128_at(bytes, 0), bytes[16]);
        let excluded = Prefix::new(u128_at(bytes, 17), bytes[33]);
        let excluded = match excluded {
            Prefix { length: 0, bits: 0 } => None,
            Prefix { length: 0, .. } => return None,
            some => Some(some),
        };
        Some(Delegation { prefix, excluded })
    }

    pub fn write(&self, bytes: &mut [u8]) {
        let excluded = self.excluded.unwrap_or(Prefix::new(0, 0));
        bytes[0..16].copy_from_slice(&self.prefix.bits.to_be_bytes());
        bytes[16] = self.prefix.length;
        bytes[17..33].copy_from_slice(&excluded.bits.to_be_bytes());
        bytes[33] = excluded.length;
    }
}

/// What the router holds, ended or not.
#[derive(Clone, Copy, PartialEq, Eq, Debug)]
pub struct Hold {
    pub delegation: Delegation,
    pub end: u64,
}

impl Hold {
    pub fn write(&self, bytes: &mut [u8]) {
        self.delegation.write(&mut bytes[..DELEGATION_BYTES]);
        bytes[34..42].copy_from_slice(&self.end.to_be_bytes());
    }
}

/// The open exchange: its message's type and the delegation that it sends.
#[derive(Clone, Copy, PartialEq, Eq, Debug)]
pub struct Open {
    pub kind: u8,
    pub sent: Option<Delegation>,
}

#[derive(Clone, PartialEq, Eq, Debug)]
pub struct State {
    pub last: u64,
    pub start: u64,
    /// When the latest exchange began: its first sending. A fresh router's start.
    pub began: u64,
    /// Last sending of a Release. A fresh router's start.
    pub released: u64,
    /// The next exchange's transaction number.
    pub next: u32,
    pub wanted: u8,
    pub iaid: u32,
    pub duid: Duid,
    pub server: Option<Duid>,
    pub held: Option<Hold>,
    pub open: Option<Open>,
}

impl State {
    /// The sound state that these bytes stand for; None where there is none (refusal 9).
    pub fn read(bytes: &StateBytes) -> Option<State> {
        let server = match bytes[172] {
            0 if all_zero(&bytes[173..303]) => None,
            0 => return None,
            length => Some(Duid::read(length, &bytes[173..303])?),
        };
        let held = if yes_or_no(bytes[303])? {
            Some(Hold { delegation: Delegation::read(&bytes[304..338])?, end: u64_at(bytes, 338) })
        } else if all_zero(&bytes[304..346]) {
            None
        } else {
            return None;
        };
        let open = match bytes[346] {
            kind @ (RENEW | REBIND | RELEASE) => {
                Some(Open { kind, sent: Some(Delegation::read(&bytes[347..381])?) })
            }
            _ if !all_zero(&bytes[347..381]) => return None,
            kind @ (SOLICIT | REQUEST) => Some(Open { kind, sent: None }),
            0 => None,
            _ => return None,
        };
        if !all_zero(&bytes[381..384]) {
            return None;
        }
        let state = State {
            last: u64_at(bytes, 0),
            start: u64_at(bytes, 8),
            began: u64_at(bytes, 16),
            released: u64_at(bytes, 24),
            next: u32_at(bytes, 32),
            wanted: bytes[36],
            iaid: u32_at(bytes, 37),
            duid: Duid::read(bytes[41], &bytes[42..172])?,
            server,
            held,
            open,
        };
        state.is_sound().then_some(state)
    }

    /// What the layout doesn't already force.
    pub fn is_sound(&self) -> bool {
        self.wanted <= LONGEST_WANTED
            && self.last < TIME_LIMIT
            && self.start <= self.last
            && self.began <= self.last
            && self.released <= self.last
            && self.next < NUMBERS
            && self.held.is_none_or(|held| {
                self.server.is_some() && held.delegation.is_good() && (held.end < END_LIMIT || held.end == NEVER)
            })
            && self.open.is_none_or(|open| {
                (self.server.is_some() || !sends_server(open.kind)) && open.sent.is_none_or(|sent| sent.is_good())
            })
    }

    /// The one representation.
    pub fn write(&self, bytes: &mut StateBytes) {
        bytes.fill(0);
        bytes[0..8].copy_from_slice(&self.last.to_be_bytes());
        bytes[8..16].copy_from_slice(&self.start.to_be_bytes());
        bytes[16..24].copy_from_slice(&self.began.to_be_bytes());
        bytes[24..32].copy_from_slice(&self.released.to_be_bytes());
        bytes[32..36].copy_from_slice(&self.next.to_be_bytes());
        bytes[36] = self.wanted;
        bytes[37..41].copy_from_slice(&self.iaid.to_be_bytes());
        bytes[41] = self.duid.length();
        self.duid.write(&mut bytes[42..172]);
        if let Some(server) = &self.server {
            bytes[172] = server.length();
            server.write(&mut bytes[173..303]);
        }
        if let Some(held) = &self.held {
            bytes[303] = 1;
            held.write(&mut bytes[304..346]);
        }
        if let Some(open) = &self.open {
            bytes[346] = open.kind;
            if let Some(sent) = &open.sent {
                sent.write(&mut bytes[347..381]);
            }
        }
    }

    /// What is held with an end after now, or never.
    fn holds(&self, now: u64) -> Option<Hold> {
        self.held.filter(|held| held.end > now)
    }

    /// The open exchange's transaction number: the one before the next.
    fn number(&self) -> u32 {
        (self.next + NUMBERS - 1) % NUMBERS
    }

    /// The text of the open exchange's message.
    fn text(&self, open: &Open) -> Vec<u8> {
        let mut text = vec![open.kind];
        text.extend_from_slice(&self.number().to_be_bytes()[1..]);
        text.extend(option(CLIENT_ID, self.duid.own()).expect("at most 130 bytes"));
        if sends_server(open.kind) {
            let server = self.server.as_ref().expect("an open exchange has the server that it sends");
            text.extend(option(SERVER_ID, server.own()).expect("at most 130 bytes"));
        }
        if open.kind != RELEASE {
            text.extend(option(OPTION_REQUEST, &PD_EXCLUDE.to_be_bytes()).expect("two bytes"));
        }
        let listed = match open.sent {
            Some(sent) => ia_prefix_option(0, 0, sent.prefix, sent.excluded).expect("a sent prefix has an encoding"),
            None if self.wanted == 0 => Vec::new(),
            None => ia_prefix_option(0, 0, Prefix::new(0, self.wanted), None).expect("at most 64"),
        };
        text.extend(ia_pd_option(self.iaid, 0, 0, &listed).expect("one prefix"));
        text
    }

    fn time_refused(&self, now: u64) -> bool {
        now < self.last || now >= TIME_LIMIT
    }
}

/// The kinds whose row wants a Server ID.
fn sends_server(kind: u8) -> bool {
    matches!(kind, REQUEST | RENEW | RELEASE)
}

fn all_zero(bytes: &[u8]) -> bool {
    bytes.iter().all(|&byte| byte == 0)
}

/// Writes a fresh state. Gives 10, or 1 for a time of 2^48 or more.
pub fn pd_router_start(state: &mut StateBytes, duid: &[u8], iaid: u32, wanted: u8, now: u64) -> u64 {
    let Some(duid) = Duid::new(duid) else {
        return refused(10);
    };
    if wanted > LONGEST_WANTED {
        return refused(10);
    }
    if now >= TIME_LIMIT {
        return refused(1);
    }
    let fresh = State {
        last: now,
        start: now,
        began: now,
        released: now,
        next: 0,
        wanted,
        iaid,
        duid,
        server: None,
        held: None,
        open: None,
    };
    fresh.write(state);
    done(0)
}

pub fn pd_router_solicit(state: &mut StateBytes, now: u64, message: &mut [u8]) -> u64 {
    begin(SOLICIT, state, now, message)
}

pub fn pd_router_request(state: &mut StateBytes, now: u64, message: &mut [u8]) -> u64 {
    begin(REQUEST, state, now, message)
}

pub fn pd_router_renew(state: &mut StateBytes, now: u64, message: &mut [u8]) -> u64 {
    begin(RENEW, state, now, message)
}

pub fn pd_router_rebind(state: &mut StateBytes, now: u64, message: &mut [u8]) -> u64 {
    begin(REBIND, state, now, message)
}

pub fn pd_router_release(state: &mut StateBytes, now: u64, message: &mut [u8]) -> u64 {
    begin(RELEASE, state, now, message)
}

/// What stands in the state, where nothing speaks against writing a message now. Gives 9, 1, 2.
fn judged(state: &StateBytes, now: u64, message: &[u8]) -> Result<State, u64> {
    let Some(kept) = State::read(state) else {
        return Err(refused(9));
    };
    if kept.time_refused(now) {
        return Err(refused(1));
    }
    if message.len() < ROOM_BYTES {
        return Err(refused(2));
    }
    Ok(kept)
}

/// Begins an exchange and writes its message. Gives 9, 1, 2, 11, 12, 13.
fn begin(kind: u8, state: &mut StateBytes, now: u64, message: &mut [u8]) -> u64 {
    let mut kept = match judged(state, now, message) {
        Ok(kept) => kept,
        Err(word) => return word,
    };
    if kept.open.is_some() {
        return refused(11);
    }
    if now - kept.start <= WAIT || now - kept.released <= WAIT || now == kept.began {
        return refused(12);
    }
    let sent = match kind {
        SOLICIT => None,
        REQUEST => {
            if kept.server.is_none() {
                return refused(13);
            }
            None
        }
        _ => match kept.holds(now) {
            Some(held) => Some(held.delegation),
            None => return refused(13),
        },
    };
    let open = Open { kind, sent };
    kept.last = now;
    kept.began = now;
    kept.next = (kept.next + 1) % NUMBERS;
    kept.open = Some(open);
    if kind == RELEASE {
        kept.released = now;
        kept.held = None;
    }
    let text = kept.text(&open);
    kept.write(state);
    message[..text.len()].copy_from_slice(&text);
    done(text.len())
}

/// Writes the open exchange's message again. Gives 9, 1, 2, 13.
pub fn pd_router_resend(state: &mut StateBytes, now: u64, message: &mut [u8]) -> u64 {
    let mut kept = match judged(state, now, message) {
        Ok(kept) => kept,
        Err(word) => return word,
    };
    let Some(open) = kept.open else {
        return refused(13);
    };
    kept.last = now;
    if open.kind == RELEASE {
        kept.released = now;
    }
    let text = kept.text(&open);
    kept.write(state);
    message[..text.len()].copy_from_slice(&text);
    done(text.len())
}

/// Closes the open exchange. Gives 9, 1, 13.
pub fn pd_router_abandon(state: &mut StateBytes, now: u64) -> u64 {
    let Some(mut kept) = State::read(state) else {
        return refused(9);
    };
    if kept.time_refused(now) {
        return refused(1);
    }
    if kept.open.is_none() {
        return refused(13);
    }
    kept.last = now;
    kept.open = None;
    kept.write(state);
    done(0)
}

/// Takes the message awaited. Gives 9, 1, 14.
pub fn pd_router_receive(state: &mut StateBytes, now: u64, message: &[u8]) -> u64 {
    let Some(mut kept) = State::read(state) else {
        return refused(9);
    };
    if kept.time_refused(now) {
        return refused(1);
    }
    let Some(after) = accept(&kept, now, message) else {
        return refused(14);
    };
    kept = after;
    kept.write(state);
    done(0)
}

/// The state after the message, or None where it isn't the one awaited.
fn accept(kept: &State, now: u64, message: &[u8]) -> Option<State> {
    let open = kept.open?;
    let read = read_message(message).ok()?;
    if read.kind != if open.kind == SOLICIT { ADVERTISE } else { REPLY } {
        return None;
    }
    if read.transaction != kept.number() {
        return None;
    }
    let [client] = read.client_ids[..] else {
        return None;
    };
    if client != kept.duid.own() {
        return None;
    }
    let [server] = read.server_ids[..] else {
        return None;
    };
    let server = Duid::new(server)?;
    if sends_server(open.kind) && kept.server != Some(server) {
        return None;
    }
    let mut after = kept.clone();
    after.last = now;
    after.open = None;
    if open.kind == RELEASE {
        return Some(after);
    }

    let [ia] = &read.ia_pds[..] else {
        return None;
    };
    if ia.iaid != kept.iaid || (ia.t1 > ia.t2 && ia.t2 > 0) {
        return None;
    }
    if open.kind == SOLICIT && read.has_status(NO_PREFIX_AVAIL) {
        return None;
    }
    if matches!(open.kind, SOLICIT | REBIND) {
        after.server = Some(server);
    }
    if open.kind != SOLICIT {
        after.held = ia
            .prefixes
            .iter()
            .find(|listed| listed.valid > 0 && listed.preferred <= listed.valid && listed.prefix.is_clean())
            .map(|listed| Hold {
                delegation: Delegation { prefix: listed.prefix, excluded: listed.excluded },
                end: end_of(kept.began, listed.valid),
            })
            .filter(|held| held.end > now);
    }
    Some(after)
}

/// Shows what is held and hasn't ended; length 0 where nothing is. Gives 9, 1, 2.
pub fn pd_router_held(state: &StateBytes, now: u64, room: &mut [u8]) -> u64 {
    let Some(kept) = State::read(state) else {
        return refused(9);
    };
    if kept.time_refused(now) {
        return refused(1);
    }
    if room.len() < HOLD_BYTES {
        return refused(2);
    }
    let Some(held) = kept.holds(now) else {
        return done(0);
    };
    held.write(&mut room[..HOLD_BYTES]);
    done(HOLD_BYTES)
}
