//! The two ends: the proved box with its table, the proved router with its state. All decisions are the library's.

use host::{Settings, State, Table, ROUTER, TABLE};
use reference::prefix::Prefix;
use reference::table::Record;
use reference::{HOLD_BYTES, REBIND, RECORD_BYTES, RELEASE, RENEW, REQUEST, ROOM_BYTES, SOLICIT};

/// A refusal's number.
pub type Refusal = u64;

// Places in the table and in a router's state.
const RECORD_COUNT: usize = 8;
const FIRST_RECORD: usize = 176;
const SERVER_LENGTH: usize = 172;
const OPEN_KIND: usize = 346;

/// A length, or the refusal.
fn done(word: u64) -> Result<usize, Refusal> {
    match word >> 16 {
        0 => Ok(word as usize),
        number => Err(number),
    }
}

pub struct BoxEnd {
    table: Box<Table>,
}

impl BoxEnd {
    pub fn start(settings: &Settings, duid: &[u8], now: u64) -> Result<BoxEnd, Refusal> {
        let mut table = Box::new([0; TABLE]);
        done(host::box_start(&mut table, settings, duid, now))?;
        Ok(BoxEnd { table })
    }

    /// The answer to a message.
    pub fn handle(&mut self, now: u64, message: &[u8]) -> Result<Vec<u8>, Refusal> {
        let mut room = [0; ROOM_BYTES];
        let length = done(host::box_handle(&mut self.table, now, message, &mut room))?;
        Ok(room[..length].to_vec())
    }

    pub fn live(&self, now: u64) -> Result<usize, Refusal> {
        done(host::box_live(&self.table, now))
    }

    /// The records in order of binding, those too that have ended since the last message. They are read where
    /// docs/INTERFACE.md says that they stand: `box_record` judges the whole table anew for each of them.
    pub fn records(&self) -> Vec<Record> {
        let count = u16::from_be_bytes([self.table[RECORD_COUNT], self.table[RECORD_COUNT + 1]]);
        let places = self.table[FIRST_RECORD..].chunks_exact(RECORD_BYTES);
        places.take(count as usize).filter_map(Record::read).collect()
    }
}

/// What a router counts as held: the prefix, its excluded prefix or none, and the end.
#[derive(Clone, Copy, Debug, PartialEq, Eq)]
pub struct Hold {
    pub prefix: Prefix,
    pub excluded: Option<Prefix>,
    pub end: u64,
}

pub struct RouterEnd {
    state: State,
}

impl RouterEnd {
    pub fn start(duid: &[u8], iaid: u32, wanted: u64, now: u64) -> Result<RouterEnd, Refusal> {
        let mut state = [0; ROUTER];
        done(host::router_start(&mut state, duid, iaid, wanted, now))?;
        Ok(RouterEnd { state })
    }

    /// Begins an exchange of this kind: the message to send.
    pub fn begin(&mut self, kind: u8, now: u64) -> Result<Vec<u8>, Refusal> {
        let call = match kind {
            SOLICIT => host::router_solicit,
            REQUEST => host::router_request,
            RENEW => host::router_renew,
            REBIND => host::router_rebind,
            RELEASE => host::router_release,
            _ => return Err(13),
        };
        self.write(call, now)
    }

    pub fn resend(&mut self, now: u64) -> Result<Vec<u8>, Refusal> {
        self.write(host::router_resend, now)
    }

    fn write(&mut self, call: fn(&mut State, u64, &mut [u8]) -> u64, now: u64) -> Result<Vec<u8>, Refusal> {
        let mut room = [0; ROOM_BYTES];
        let length = done(call(&mut self.state, now, &mut room))?;
        Ok(room[..length].to_vec())
    }

    pub fn abandon(&mut self, now: u64) -> Result<(), Refusal> {
        done(host::router_abandon(&mut self.state, now)).map(|_| ())
    }

    pub fn receive(&mut self, now: u64, message: &[u8]) -> Result<(), Refusal> {
        done(host::router_receive(&mut self.state, now, message)).map(|_| ())
    }

    /// What is held and hasn't ended.
    pub fn held(&self, now: u64) -> Option<Hold> {
        let mut room = [0; HOLD_BYTES];
        match done(host::router_held(&self.state, now, &mut room)) {
            Ok(HOLD_BYTES) => Some(hold(&room)),
            _ => None,
        }
    }

    pub fn knows_server(&self) -> bool {
        self.state[SERVER_LENGTH] > 0
    }

    /// The kind of the open exchange.
    pub fn open(&self) -> Option<u8> {
        Some(self.state[OPEN_KIND]).filter(|&kind| kind > 0)
    }
}

fn hold(room: &[u8; HOLD_BYTES]) -> Hold {
    let number = |from: usize, to: usize| room[from..to].iter().fold(0, |sum: u128, &byte| sum << 8 | byte as u128);
    let excluded = Prefix::new(number(17, 33), room[33]);
    Hold {
        prefix: Prefix::new(number(0, 16), room[16]),
        excluded: Some(excluded).filter(|excluded| excluded.length > 0),
        end: number(34, 42) as u64,
    }
}
