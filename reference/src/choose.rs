//! Choosing a prefix for a new binding.

use crate::prefix::Prefix;
use crate::table::{Record, Settings, LONGEST_DELEGATION, MOST_RECORDS};

/// The prefix for an identity without a live binding, or None for NoPrefixAvail. `live` holds the live records
/// only; `hint` is the first IA Prefix listed.
pub fn choose(settings: &Settings, live: &[Record], hint: Option<Prefix>) -> Option<Prefix> {
    if live.len() >= MOST_RECORDS {
        return None;
    }
    if let Some(place) = hint {
        if counts_as_place(settings, live, place) {
            return Some(place);
        }
    }
    (wanted_length(settings, hint)..=LONGEST_DELEGATION).find_map(|length| lowest_free(settings.pool, live, length))
}

/// Absent or 0 gives D, below S gives S, above 60 gives 60.
pub fn wanted_length(settings: &Settings, hint: Option<Prefix>) -> u8 {
    match hint.map(|prefix| prefix.length) {
        None | Some(0) => settings.standard,
        Some(n) if n < settings.shortest => settings.shortest,
        Some(n) if n > LONGEST_DELEGATION => LONGEST_DELEGATION,
        Some(n) => n,
    }
}

fn counts_as_place(settings: &Settings, live: &[Record], place: Prefix) -> bool {
    place.bits != 0
        && place.length >= settings.shortest
        && place.length <= LONGEST_DELEGATION
        && place.is_clean()
        && place.lies_in(settings.pool)
        && live.iter().all(|record| !record.prefix.overlaps(place))
}

/// The lowest aligned prefix of this length in the pool that overlaps no live one. Counted in upper halves, so
/// that the end of the pool at the top of the address space is a number too.
fn lowest_free(pool: Prefix, live: &[Record], length: u8) -> Option<Prefix> {
    let size = |length: u8| 1u128 << (64 - length as u32);
    let first = pool.bits >> 64;
    let end = first + size(pool.length);
    let mut start = first;
    while start < end {
        let candidate = Prefix::new(start << 64, length);
        match live.iter().find(|record| record.prefix.overlaps(candidate)) {
            None => return Some(candidate),
            // Past the whole of what stands in the way: a shorter prefix is stepped over at once.
            Some(record) if record.prefix.length < length => {
                start = (record.prefix.bits >> 64) + size(record.prefix.length)
            }
            Some(_) => start += size(length),
        }
    }
    None
}
