//! The sides that are measured: the proved library through its C interface, the plain Rust one, and the plain one with
//! a soundness test that sorts.

use crate::sorted;
use host::Settings;
use reference::TableBytes;

/// P, S and D.
pub struct Lengths {
    pub pool: u8,
    pub shortest: u8,
    pub standard: u8,
}

/// The operations of one side. A box is started with a pool by its upper half.
pub struct Side {
    pub name: &'static str,
    pub start: fn(&mut TableBytes, u64, &Lengths) -> u64,
    pub live: fn(&TableBytes, u64) -> u64,
    pub handle: fn(&mut TableBytes, u64, &[u8], &mut [u8]) -> u64,
}

const LIFETIME: u32 = 3_600;
/// The box's own DUID.
pub const OWN: &[u8] = &[0, 1, 0, 1, 0x2e, 0x5b, 0x7c, 0x10, 0x52, 0x54, 0x00, 0xb0, 0xb0, 0xb0];

fn proved_start(table: &mut TableBytes, pool: u64, lengths: &Lengths) -> u64 {
    let settings = Settings {
        pool_high: pool,
        pool_low: 0,
        pool_length: lengths.pool as u64,
        shortest: lengths.shortest as u64,
        standard: lengths.standard as u64,
        preferred: LIFETIME,
        valid: LIFETIME,
        exclusion: false,
    };
    host::box_start(table, &settings, OWN, 0)
}

fn plain_start(table: &mut TableBytes, pool: u64, lengths: &Lengths) -> u64 {
    let Lengths { pool: length, shortest, standard } = *lengths;
    reference::pd_box_start(table, pool, 0, length, shortest, standard, LIFETIME, LIFETIME, 0, OWN, 0)
}

fn sorted_handle(table: &mut TableBytes, now: u64, message: &[u8], answer: &mut [u8]) -> u64 {
    reference::boxed::handle_with(sorted::read, table, now, message, answer)
}

pub const PROVED: Side = Side { name: "proved", start: proved_start, live: host::box_live, handle: host::box_handle };

pub const PLAIN: Side =
    Side { name: "plain", start: plain_start, live: reference::pd_box_live, handle: reference::pd_box_handle };

pub const SORTED: Side = Side { name: "sorted", start: plain_start, live: sorted::live, handle: sorted_handle };

pub const SIDES: [&Side; 3] = [&PROVED, &PLAIN, &SORTED];
