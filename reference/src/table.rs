//! The box's table: its settings, its records, when it is sound, and its layout in bytes.

use crate::prefix::Prefix;
use crate::wire::{u16_at, u32_at, u64_at};
use crate::{TableBytes, END_LIMIT, NEVER, RECORD_BYTES, TABLE_BYTES, TIME_LIMIT};

pub const MOST_RECORDS: usize = 256;
pub const LONGEST_DELEGATION: u8 = 60;
pub const SHORTEST_DUID: usize = 3;
pub const LONGEST_DUID: usize = 130;
const FIRST_RECORD: usize = 176;

/// A DUID of 3 to 130 bytes, zeros after them.
#[derive(Clone, Copy, PartialEq, Eq, Debug)]
pub struct Duid {
    length: u8,
    bytes: [u8; LONGEST_DUID],
}

impl Duid {
    /// None unless there are 3 to 130 bytes.
    pub fn new(own: &[u8]) -> Option<Duid> {
        if own.len() < SHORTEST_DUID || own.len() > LONGEST_DUID {
            return None;
        }
        let mut bytes = [0u8; LONGEST_DUID];
        bytes[..own.len()].copy_from_slice(own);
        Some(Duid { length: own.len() as u8, bytes })
    }

    pub fn own(&self) -> &[u8] {
        &self.bytes[..self.length as usize]
    }

    pub fn length(&self) -> u8 {
        self.length
    }

    /// From a length byte and a field of 130 bytes; None unless the length is good and zeros follow.
    pub fn read(length: u8, field: &[u8]) -> Option<Duid> {
        let length = length as usize;
        if length > LONGEST_DUID || field[length..LONGEST_DUID].iter().any(|&byte| byte != 0) {
            return None;
        }
        Duid::new(&field[..length])
    }

    /// Into a field of 130 bytes.
    pub fn write(&self, field: &mut [u8]) {
        field.copy_from_slice(&self.bytes);
    }
}

#[derive(Clone, Copy, PartialEq, Eq, Debug)]
pub struct Settings {
    pub pool: Prefix,
    pub shortest: u8,
    pub standard: u8,
    pub preferred: u32,
    pub valid: u32,
    pub exclusion: bool,
    pub duid: Duid,
}

impl Settings {
    /// Pool length 32 to 56 with zeros after it, P <= S <= D <= 60, preferred at least 120 and at most valid.
    /// (The DUID is good by its type.)
    pub fn are_good(&self) -> bool {
        let pool_good = self.pool.length >= 32 && self.pool.length <= 56 && self.pool.is_clean();
        let lengths_good = self.pool.length <= self.shortest
            && self.shortest <= self.standard
            && self.standard <= LONGEST_DELEGATION;
        let lifetimes_good = self.preferred >= 120 && self.preferred <= self.valid;
        pool_good && lengths_good && lifetimes_good
    }
}

#[derive(Clone, Copy, PartialEq, Eq, Debug)]
pub struct Record {
    pub duid: Duid,
    pub iaid: u32,
    pub prefix: Prefix,
    /// The last /64 of the delegation is excluded. (No other excluded prefix is sound.)
    pub excludes: bool,
    /// A moment, or never.
    pub end: u64,
}

impl Record {
    pub fn is_live(&self, now: u64) -> bool {
        self.end > now
    }

    pub fn excluded(&self) -> Option<Prefix> {
        self.excludes.then(|| self.prefix.last_64())
    }

    pub fn is_of(&self, duid: &[u8], iaid: u32) -> bool {
        self.iaid == iaid && self.duid.own() == duid
    }

    pub fn read(bytes: &[u8]) -> Option<Record> {
        Some(Record {
            duid: Duid::read(bytes[0], &bytes[23..153])?,
            iaid: u32_at(bytes, 1),
            prefix: Prefix::new((u64_at(bytes, 5) as u128) << 64, bytes[13]),
            excludes: yes_or_no(bytes[14])?,
            end: u64_at(bytes, 15),
        })
    }

    pub fn write(&self, bytes: &mut [u8]) {
        bytes[0] = self.duid.length();
        bytes[1..5].copy_from_slice(&self.iaid.to_be_bytes());
        bytes[5..13].copy_from_slice(&((self.prefix.bits >> 64) as u64).to_be_bytes());
        bytes[13] = self.prefix.length;
        bytes[14] = self.excludes as u8;
        bytes[15..23].copy_from_slice(&self.end.to_be_bytes());
        self.duid.write(&mut bytes[23..153]);
    }
}

#[derive(Clone, PartialEq, Eq, Debug)]
pub struct Table {
    pub last: u64,
    pub settings: Settings,
    /// In order of binding, a new one last.
    pub records: Vec<Record>,
}

impl Table {
    /// The sound table that these bytes stand for; None where there is none (refusal 9).
    pub fn read(bytes: &TableBytes) -> Option<Table> {
        let count = u16_at(bytes, 8) as usize;
        if count > MOST_RECORDS {
            return None;
        }
        let settings = Settings {
            pool: Prefix::new((u64_at(bytes, 10) as u128) << 64, bytes[18]),
            shortest: bytes[19],
            standard: bytes[20],
            exclusion: yes_or_no(bytes[21])?,
            preferred: u32_at(bytes, 22),
            valid: u32_at(bytes, 26),
            duid: Duid::read(bytes[30], &bytes[31..161])?,
        };
        if bytes[161..FIRST_RECORD].iter().any(|&byte| byte != 0) {
            return None;
        }
        let after_the_last = FIRST_RECORD + RECORD_BYTES * count;
        if bytes[after_the_last..].iter().any(|&byte| byte != 0) {
            return None;
        }
        let mut records = Vec::with_capacity(MOST_RECORDS);
        for record in bytes[FIRST_RECORD..after_the_last].chunks_exact(RECORD_BYTES) {
            records.push(Record::read(record)?);
        }
        let table = Table { last: u64_at(bytes, 0), settings, records };
        table.is_sound().then_some(table)
    }

    /// What the layout doesn't already force.
    pub fn is_sound(&self) -> bool {
        self.settings.are_good()
            && self.last < TIME_LIMIT
            && self.records.len() <= MOST_RECORDS
            && self.records.iter().all(|record| self.is_good(record))
            && self.no_two_overlap()
            && self.no_identity_twice()
    }

    fn is_good(&self, record: &Record) -> bool {
        record.prefix.lies_in(self.settings.pool)
            && record.prefix.length >= self.settings.shortest
            && record.prefix.length <= LONGEST_DELEGATION
            && record.prefix.is_clean()
            && (self.settings.exclusion || !record.excludes)
            && (record.end < END_LIMIT || record.end == NEVER)
    }

    fn no_two_overlap(&self) -> bool {
        // Delegations have at most 60 bits: the upper halves decide.
        let short: Vec<(u64, u64)> = self
            .records
            .iter()
            .map(|record| {
                let bits = (record.prefix.bits >> 64) as u64;
                let mask = (crate::prefix::mask(record.prefix.length) >> 64) as u64;
                (bits, mask)
            })
            .collect();
        short
            .iter()
            .enumerate()
            .all(|(i, &(bits, mask))| short[..i].iter().all(|&(other, its)| (bits ^ other) & mask & its != 0))
    }

    fn no_identity_twice(&self) -> bool {
        self.records
            .iter()
            .enumerate()
            .all(|(i, record)| !self.records[..i].iter().any(|other| other.is_of(record.duid.own(), record.iaid)))
    }

    /// The one representation.
    pub fn write(&self, bytes: &mut TableBytes) {
        let after_the_last = FIRST_RECORD + RECORD_BYTES * self.records.len();
        bytes[0..8].copy_from_slice(&self.last.to_be_bytes());
        bytes[8..10].copy_from_slice(&(self.records.len() as u16).to_be_bytes());
        bytes[10..18].copy_from_slice(&((self.settings.pool.bits >> 64) as u64).to_be_bytes());
        bytes[18] = self.settings.pool.length;
        bytes[19] = self.settings.shortest;
        bytes[20] = self.settings.standard;
        bytes[21] = self.settings.exclusion as u8;
        bytes[22..26].copy_from_slice(&self.settings.preferred.to_be_bytes());
        bytes[26..30].copy_from_slice(&self.settings.valid.to_be_bytes());
        bytes[30] = self.settings.duid.length();
        self.settings.duid.write(&mut bytes[31..161]);
        bytes[161..FIRST_RECORD].fill(0);
        for (record, room) in
            self.records.iter().zip(bytes[FIRST_RECORD..after_the_last].chunks_exact_mut(RECORD_BYTES))
        {
            record.write(room);
        }
        bytes[after_the_last..TABLE_BYTES].fill(0);
    }
}

pub(crate) fn yes_or_no(byte: u8) -> Option<bool> {
    match byte {
        0 => Some(false),
        1 => Some(true),
        _ => None,
    }
}
