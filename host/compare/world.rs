//! The World with a library at both ends: one box, many lines, a network that loses, repeats, reorders and delays up to 30
//! seconds, routers that die and are born again; and demand 3, asserted after every step.

use crate::both::Library;
use crate::calls::Call;
use host::{Settings, State, Table, ROUTER, TABLE};
use reference::generate::{another_duid, duid, Random};
use reference::prefix::Prefix;
use reference::table::{Record, SHORTEST_DUID};
use reference::{REBIND, RELEASE, RENEW, REQUEST, SOLICIT};

/// A copy arrives at most this long after its sending.
const LATEST: u64 = 30;
const ROOM: usize = 512;
const HOLD: usize = 42;
const BOX: &[u8] = b"the box";

/// A line's identity, and the state of the router that is alive on it.
pub struct Line {
    pub duid: Vec<u8>,
    pub iaid: u32,
    pub state: Option<State>,
}

/// A message that was sent: on which line, and in which direction.
#[derive(Clone)]
pub struct Sent {
    pub line: usize,
    pub to_box: bool,
    pub message: Vec<u8>,
}

/// A copy on its way: it arrives at `due` or later, and at `latest` at the latest.
struct Copy {
    due: u64,
    latest: u64,
    sent: Sent,
}

/// How often it was met.
#[derive(Default, Clone, Copy)]
pub struct Seen {
    /// Steps tried.
    pub tried: u64,
    /// Steps taken: the clock went on, a router died or was born, or a call wasn't refused.
    pub steps: u64,
    pub taken: u64,
    pub most_held: usize,
    pub released: u64,
    pub refused_full: u64,
    pub born: u64,
    pub repeated: u64,
    pub strayed: u64,
}

impl Seen {
    /// Both together.
    pub fn and(&self, other: &Seen) -> Seen {
        Seen {
            tried: self.tried + other.tried,
            steps: self.steps + other.steps,
            taken: self.taken + other.taken,
            most_held: self.most_held.max(other.most_held),
            released: self.released + other.released,
            refused_full: self.refused_full + other.refused_full,
            born: self.born + other.born,
            repeated: self.repeated + other.repeated,
            strayed: self.strayed + other.strayed,
        }
    }

    pub fn print(&self) {
        println!(
            "  prefixes taken: {}, most held at once: {}, Releases: {}",
            self.taken, self.most_held, self.released
        );
        println!("  NoPrefixAvail: {}, routers born: {}", self.refused_full, self.born);
        println!("  messages repeated: {}, copies astray: {}", self.repeated, self.strayed);
    }

    /// Nothing is missing.
    pub fn all_met(&self) -> bool {
        let counts = [self.taken, self.released, self.refused_full, self.born, self.repeated, self.strayed];
        self.most_held > 1 && counts.iter().all(|&count| count > 0)
    }
}

pub struct World<'l, L: Library> {
    r: Random,
    library: &'l mut L,
    pub now: u64,
    pub table: Box<Table>,
    valid: u32,
    pub lines: Vec<Line>,
    copies: Vec<Copy>,
    pub seen: Seen,
}

impl<'l, L: Library> World<'l, L> {
    /// A box with a small pool, and from two lines to this many.
    pub fn new(mut r: Random, library: &'l mut L, most: u64) -> World<'l, L> {
        let now = r.below(1_000_000);
        let settings = small(&mut r);
        let lines = identities(&mut r, most);
        World::started(r, library, settings, lines, now)
    }

    /// A box just started, and nobody alive.
    pub fn started(r: Random, library: &'l mut L, settings: Settings, lines: Vec<Line>, now: u64) -> World<'l, L> {
        let mut table = Box::new([0; TABLE]);
        let (word, _) = library.call(&Call::BoxStart { settings, duid: BOX.to_vec(), now }, &mut table[..]);
        assert_eq!(word, 0, "a good start");
        World { r, library, now, table, valid: settings.valid, lines, copies: Vec::new(), seen: Seen::default() }
    }

    pub fn library(&mut self) -> &mut L {
        self.library
    }

    /// One step of the World, and demand 3 after it.
    pub fn step(&mut self) {
        let line = self.r.below(self.lines.len() as u64) as usize;
        match self.r.below(16) {
            0 => self.tick(),
            1 => self.die(line),
            2 => self.born(line),
            3..=5 => self.begin(line),
            6 => self.resend(line),
            7 => self.abandon(line),
            _ => self.deliver(),
        }
        self.seen.tried += 1;
        self.demand_3().unwrap_or_else(|fault| panic!("demand 3, at {}: {fault}", self.now));
    }

    // ------------------------------------------------------------ the steps

    /// The clock goes on, mostly by little, often to the last second of a copy, at times past the ends; a copy that is too old
    /// by then never arrives.
    fn tick(&mut self) {
        self.now = match self.r.below(20) {
            0 => self.now + self.r.below(2 * self.valid.min(2_000) as u64),
            1 => self.now + self.r.from_to(LATEST - 1, 2 * LATEST + 1),
            2..=5 => self.copies.iter().map(|copy| copy.latest).min().unwrap_or(self.now + 61),
            _ => self.now + self.r.below(6),
        };
        self.seen.steps += 1;
        let now = self.now;
        self.copies.retain(|copy| copy.latest >= now);
    }

    /// Copies of the message set out: none, or some, each at its own pace.
    fn spread(&mut self, sent: Sent) {
        let copies = self.r.pick(&[0, 1, 1, 1, 2, 3]);
        self.seen.repeated += (copies > 1) as u64;
        for _ in 0..copies {
            let delay = match self.r.below(8) {
                0 => LATEST,
                1..=3 => self.r.from_to(0, LATEST),
                _ => self.r.below(3),
            };
            self.copies.push(Copy { due: self.now + delay, latest: self.now + LATEST, sent: sent.clone() });
        }
    }

    /// Seldom: a router dies.
    fn die(&mut self, line: usize) {
        if self.r.once_in(60) {
            self.seen.steps += self.lines[line].state.take().is_some() as u64;
            if self.r.once_in(2) {
                self.born(line);
            }
        }
    }

    /// Where no router is alive one is born, with any wish.
    fn born(&mut self, line: usize) {
        if self.lines[line].state.is_none() {
            let wanted = self.r.pick(&[0, 0, 56, 58, 59, 60, 64]);
            self.bear(line, wanted);
        }
    }

    /// A router is born on the line.
    pub fn bear(&mut self, line: usize, wanted: u64) {
        let Line { duid, iaid, .. } = &self.lines[line];
        let call = Call::RouterStart { duid: duid.clone(), iaid: *iaid, wanted, now: self.now };
        let mut state = [0; ROUTER];
        assert_eq!(self.library.call(&call, &mut state).0, 0, "a good start");
        self.lines[line].state = Some(state);
        self.seen.born += 1;
        self.seen.steps += 1;
    }

    /// The router alive on the line takes a step: the message that it sends, or the refusal's number (0 where it sends none).
    pub fn router(&mut self, line: usize, call: Call) -> Result<Sent, u64> {
        let state = self.lines[line].state.as_mut().expect("alive");
        let (word, room) = self.library.call(&call, state);
        self.seen.steps += (word >> 16 == 0) as u64;
        if word >> 16 != 0 || word == 0 {
            return Err(word >> 16);
        }
        Ok(Sent { line, to_box: true, message: room[..word as usize].to_vec() })
    }

    /// Whatever leads on from where the router stands, and at times anything else.
    fn begin(&mut self, line: usize) {
        let Some(state) = &self.lines[line].state else {
            return;
        };
        // Byte 172: a server is known; byte 303: a prefix is held.
        let kind = match (state[172], state[303], self.r.below(12)) {
            (_, _, 0) => self.r.pick(&[SOLICIT, REQUEST, RENEW, REBIND, RELEASE]),
            (0, _, _) => SOLICIT,
            (_, 0, _) => REQUEST,
            (_, _, 1..=2) => RELEASE,
            (_, _, 3..=5) => REBIND,
            _ => RENEW,
        };
        if let Ok(sent) = self.router(line, Call::RouterSend { kind, now: self.now, room: ROOM }) {
            self.seen.released += (kind == RELEASE) as u64;
            self.spread(sent);
        }
    }

    /// Byte 346: an exchange is open. Without one it is tried seldom.
    fn resend(&mut self, line: usize) {
        let open = self.lines[line].state.map(|state| state[346] != 0);
        if open == Some(true) || open == Some(false) && self.r.once_in(8) {
            if let Ok(sent) = self.router(line, Call::RouterResend { now: self.now, room: ROOM }) {
                self.spread(sent);
            }
        }
    }

    fn abandon(&mut self, line: usize) {
        if self.lines[line].state.is_some() && self.r.once_in(3) {
            let _ = self.router(line, Call::RouterAbandon { now: self.now });
        }
    }

    /// Some copy that is due arrives where it was meant to, seldom elsewhere. Where none is, the clock may go on.
    fn deliver(&mut self) {
        let due: Vec<usize> = (0..self.copies.len()).filter(|&at| self.copies[at].due <= self.now).collect();
        if due.is_empty() {
            if self.r.once_in(3) {
                self.tick();
            }
            return;
        }
        let mut sent = self.copies.swap_remove(self.r.pick(&due)).sent;
        if self.r.once_in(12) {
            self.seen.strayed += 1;
            sent.line = self.r.below(self.lines.len() as u64) as usize;
            sent.to_box = self.r.once_in(2);
        }
        if let Some(answer) = self.arrive(&sent) {
            self.spread(answer);
        }
    }

    /// A copy reaches the box, whose answer is handed back, or the router alive on its line.
    pub fn arrive(&mut self, sent: &Sent) -> Option<Sent> {
        let message = sent.message.clone();
        if sent.to_box {
            let call = Call::BoxHandle { now: self.now, message, room: ROOM };
            let (word, room) = self.library.call(&call, &mut self.table[..]);
            self.seen.steps += (word >> 16 == 0) as u64;
            let message = room[..word as usize & 0xFFFF].to_vec();
            self.seen.refused_full += message.ends_with(b"NoPrefixAvail") as u64;
            return (word >> 16 == 0).then_some(Sent { line: sent.line, to_box: false, message });
        }
        let state = self.lines[sent.line].state.as_mut()?;
        let held = state[303];
        let (word, _) = self.library.call(&Call::RouterReceive { now: self.now, message }, state);
        self.seen.steps += (word >> 16 == 0) as u64;
        self.seen.taken += (held == 0 && state[303] == 1) as u64;
        None
    }

    /// A message on its way, with copies of the table and of the state on its line.
    pub fn some_message(&mut self) -> Option<(Sent, Box<Table>, State)> {
        if self.copies.is_empty() {
            return None;
        }
        let at = self.r.below(self.copies.len() as u64) as usize;
        let sent = self.copies[at].sent.clone();
        let state = self.lines[sent.line].state?;
        Some((sent, self.table.clone(), state))
    }

    // ------------------------------------------------------------ demand 3

    /// Each prefix that a router alive still counts as held is bound to it with the same excluded prefix and an end no earlier;
    /// and no two overlap.
    pub fn demand_3(&mut self) -> Result<(), String> {
        let records = records(&self.table);
        let mut held: Vec<(usize, Hold)> = Vec::new();
        for (at, line) in self.lines.iter().enumerate() {
            let Some(hold) = line.state.as_ref().and_then(|state| held_at(state, self.now)) else {
                continue;
            };
            if !records.iter().any(|record| bound(record, line, &hold)) {
                return Err(format!("line {at} holds {hold:?}, which isn't bound to it"));
            }
            if let Some((other, _)) = held.iter().find(|(_, other)| other.prefix.overlaps(hold.prefix)) {
                return Err(format!("lines {other} and {at} hold overlapping prefixes"));
            }
            held.push((at, hold));
        }
        self.seen.most_held = self.seen.most_held.max(held.len());
        Ok(())
    }
}

/// What a router holds, as `pd_router_held` shows it.
#[derive(Clone, Copy, Debug, PartialEq, Eq)]
pub struct Hold {
    pub prefix: Prefix,
    pub excluded: Option<Prefix>,
    pub end: u64,
}

/// What the router still counts as held at now: shown by the proved library.
pub fn held_at(state: &State, now: u64) -> Option<Hold> {
    let mut room = [0; HOLD];
    let word = host::router_held(state, now, &mut room);
    assert_eq!(word >> 16, 0, "a router alive has a sound state");
    let prefix = |at: usize| {
        let bits = u128::from_be_bytes(room[at..at + 16].try_into().expect("16 bytes"));
        Prefix::new(bits, room[at + 16])
    };
    let excluded = Some(prefix(17)).filter(|excluded| excluded.length > 0);
    let end = u64::from_be_bytes(room[34..42].try_into().expect("8 bytes"));
    (word > 0).then(|| Hold { prefix: prefix(0), excluded, end })
}

/// The records of a table, read by its layout.
pub fn records(table: &Table) -> Vec<Record> {
    let count = u16::from_be_bytes([table[8], table[9]]) as usize;
    table[176..].chunks_exact(153).take(count).map(|bytes| Record::read(bytes).expect("a sound record")).collect()
}

fn bound(record: &Record, line: &Line, hold: &Hold) -> bool {
    record.is_of(&line.duid, line.iaid)
        && record.prefix == hold.prefix
        && record.excluded() == hold.excluded
        && record.end >= hold.end
}

/// Small pools, so that they fill, and short lifetimes, so that they end; at times for ever.
fn small(r: &mut Random) -> Settings {
    let pool_length = r.pick(&[54, 55, 56, 56]);
    let shortest = r.from_to(pool_length, 60);
    let valid = r.pick(&[120, 150, 300, 900, u32::MAX]);
    Settings {
        pool_high: 0x2001_0db8_0000_ac00,
        pool_low: 0,
        pool_length,
        shortest,
        standard: r.from_to(shortest.max(58), 60),
        preferred: r.pick(&[120, valid]),
        valid,
        exclusion: !r.once_in(3),
    }
}

/// Identities that clash in all but one thing: the same DUID with another IAID, a DUID with one byte or one zero more.
fn identities(r: &mut Random, most: u64) -> Vec<Line> {
    let mut lines: Vec<Line> = Vec::new();
    let count = r.from_to(2, most) as usize;
    while lines.len() < count {
        let own = match lines.last() {
            Some(last) if !r.once_in(3) => another_duid(r, &last.duid),
            _ => duid(r),
        };
        let iaid = r.below(3) as u32;
        let good = own.len() >= SHORTEST_DUID && own.len() <= 130;
        if good && lines.iter().all(|line| (&line.duid, line.iaid) != (&own, iaid)) {
            lines.push(Line { duid: own, iaid, state: None });
        }
    }
    lines
}
