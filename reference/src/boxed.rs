//! The box: the delegating side.

use crate::choose::choose;
use crate::prefix::Prefix;
use crate::table::{Duid, Record, Settings, Table};
use crate::wire::{
    ia_pd_option, ia_prefix_option, option, read_message, status_option, IaPd, IaPrefix, Message, CLIENT_ID,
    LONGEST_MESSAGE, NO_BINDING, NO_PREFIX_AVAIL, SERVER_ID, SHORTEST_MESSAGE, SUCCESS,
};
use crate::{
    done, end_of, refused, TableBytes, ADVERTISE, FOR_EVER, REBIND, RECORD_BYTES, RELEASE, RENEW, REPLY, REQUEST,
    ROOM_BYTES, SOLICIT, TIME_LIMIT,
};

/// The most IA Prefix options read in the IA_PD of a message to the box.
const MOST_LISTED: usize = 4;

/// One row for each served kind: its type, and whether a Server ID stands. (A Client ID always does.)
pub const IDENTITY_ROWS: [(u8, bool); 5] =
    [(SOLICIT, false), (REQUEST, true), (RENEW, true), (REBIND, false), (RELEASE, true)];

/// Writes an empty table. Gives 10, or 1 for a time of 2^48 or more.
#[allow(clippy::too_many_arguments)]
pub fn pd_box_start(
    table: &mut TableBytes,
    pool_high: u64,
    pool_low: u64,
    pool_length: u8,
    shortest: u8,
    standard: u8,
    preferred: u32,
    valid: u32,
    exclusion: u8,
    duid: &[u8],
    now: u64,
) -> u64 {
    let Some(duid) = Duid::new(duid) else {
        return refused(10);
    };
    let Some(exclusion) = crate::table::yes_or_no(exclusion) else {
        return refused(10);
    };
    let pool = Prefix::new(((pool_high as u128) << 64) | pool_low as u128, pool_length);
    let settings = Settings { pool, shortest, standard, preferred, valid, exclusion, duid };
    if !settings.are_good() {
        return refused(10);
    }
    if now >= TIME_LIMIT {
        return refused(1);
    }
    Table { last: now, settings, records: Vec::new() }.write(table);
    done(0)
}

/// Handles a message and writes the answer. Gives 9, 1, 2, 3, 4, 5, 6, 7, 8 in that order.
pub fn pd_box_handle(table: &mut TableBytes, now: u64, message: &[u8], answer: &mut [u8]) -> u64 {
    handle_with(Table::read, table, now, message, answer)
}

/// The same with another reader of tables, to measure it.
pub fn handle_with(
    read_table: fn(&TableBytes) -> Option<Table>,
    table: &mut TableBytes,
    now: u64,
    message: &[u8],
    answer: &mut [u8],
) -> u64 {
    let Some(mut kept) = read_table(table) else {
        return refused(9);
    };
    if now < kept.last || now >= TIME_LIMIT {
        return refused(1);
    }
    if answer.len() < ROOM_BYTES {
        return refused(2);
    }
    if message.len() < SHORTEST_MESSAGE || message.len() > LONGEST_MESSAGE {
        return refused(3);
    }
    let Some(&(_, server_stands)) = IDENTITY_ROWS.iter().find(|row| row.0 == message[0]) else {
        return refused(4);
    };
    let Ok(read) = read_message(message) else {
        return refused(5);
    };
    let Some(client) = identity(&read, server_stands, &kept.settings.duid) else {
        return refused(6);
    };
    let [ia] = &read.ia_pds[..] else {
        return refused(7);
    };
    if ia.prefixes.len() > MOST_LISTED {
        return refused(7);
    }

    // Nothing is refused any more but a silent Rebind, and until then only the copy changes.
    kept.last = now;
    kept.records.retain(|record| record.is_live(now));
    let Some(after_identities) = serve(&mut kept, now, &read, &client, ia) else {
        return refused(8);
    };

    let mut text = vec![if read.kind == SOLICIT { ADVERTISE } else { REPLY }];
    text.extend_from_slice(&message[1..4]);
    text.extend(option(CLIENT_ID, client.own()).expect("at most 130 bytes"));
    text.extend(option(SERVER_ID, kept.settings.duid.own()).expect("at most 130 bytes"));
    text.extend(after_identities);

    kept.write(table);
    answer[..text.len()].copy_from_slice(&text);
    done(text.len())
}

/// The number of records live at now. Gives 9, 1.
pub fn pd_box_live(table: &TableBytes, now: u64) -> u64 {
    let Some(kept) = Table::read(table) else {
        return refused(9);
    };
    if now < kept.last || now >= TIME_LIMIT {
        return refused(1);
    }
    done(kept.records.iter().filter(|record| record.is_live(now)).count())
}

/// Shows the record at that place, ended or not; length 0 where none stands. Gives 9, 2.
pub fn pd_box_record(table: &TableBytes, index: u64, room: &mut [u8]) -> u64 {
    let Some(kept) = Table::read(table) else {
        return refused(9);
    };
    if room.len() < RECORD_BYTES {
        return refused(2);
    }
    let Some(record) = usize::try_from(index).ok().and_then(|index| kept.records.get(index)) else {
        return done(0);
    };
    record.write(&mut room[..RECORD_BYTES]);
    done(RECORD_BYTES)
}

/// The Client ID, where the kind's row of identities is whole.
fn identity(read: &Message<'_>, server_stands: bool, own: &Duid) -> Option<Duid> {
    let [client] = read.client_ids[..] else {
        return None;
    };
    let server_good = match read.server_ids[..] {
        [] => !server_stands,
        [server] => server_stands && server == own.own(),
        _ => false,
    };
    if !server_good {
        return None;
    }
    Duid::new(client)
}

/// What comes after the identities in the answer, with the table changed; None for a Rebind passed over in silence.
/// Ended records are dropped already.
fn serve(kept: &mut Table, now: u64, read: &Message<'_>, client: &Duid, ia: &IaPd) -> Option<Vec<u8>> {
    let settings = kept.settings;
    let bound = kept.records.iter().position(|record| record.is_of(client.own(), ia.iaid));
    match read.kind {
        SOLICIT | REQUEST => {
            let record = match bound {
                Some(at) => {
                    if read.kind == REQUEST {
                        extend(&mut kept.records[at], now, settings.valid);
                    }
                    kept.records[at]
                }
                None => {
                    let hint = ia.prefixes.first().map(|listed| listed.prefix);
                    let Some(prefix) = choose(&settings, &kept.records, hint) else {
                        return Some(with_status(ia.iaid, NO_PREFIX_AVAIL));
                    };
                    let record = Record {
                        duid: *client,
                        iaid: ia.iaid,
                        prefix,
                        excludes: settings.exclusion && read.asks_exclude,
                        end: end_of(now, settings.valid),
                    };
                    if read.kind == REQUEST {
                        kept.records.push(record);
                    }
                    record
                }
            };
            Some(with_prefixes(ia.iaid, &settings, Some(&record), &[]))
        }
        RENEW | REBIND => match bound {
            Some(at) => {
                extend(&mut kept.records[at], now, settings.valid);
                let record = kept.records[at];
                let others: Vec<&IaPrefix> =
                    ia.prefixes.iter().filter(|listed| listed.prefix != record.prefix).collect();
                Some(with_prefixes(ia.iaid, &settings, Some(&record), &others))
            }
            None if read.kind == RENEW => Some(with_status(ia.iaid, NO_BINDING)),
            None => {
                let all_outside = ia.prefixes.iter().all(|listed| !listed.prefix.lies_in(settings.pool));
                if ia.prefixes.is_empty() || !all_outside {
                    return None;
                }
                let all: Vec<&IaPrefix> = ia.prefixes.iter().collect();
                Some(with_prefixes(ia.iaid, &settings, None, &all))
            }
        },
        RELEASE => {
            let mut text = status_option(SUCCESS);
            match bound {
                Some(at) if matches(&kept.records[at], ia) => {
                    kept.records.remove(at);
                }
                _ => text.extend(with_status(ia.iaid, NO_BINDING)),
            }
            Some(text)
        }
        _ => unreachable!("only served kinds come here"),
    }
}

/// The end becomes the later of its old value and now plus the valid lifetime.
fn extend(record: &mut Record, now: u64, valid: u32) {
    record.end = record.end.max(end_of(now, valid));
}

/// Some listed prefix equals the binding's, and every PD Exclude listed equals its excluded prefix.
fn matches(record: &Record, ia: &IaPd) -> bool {
    ia.prefixes.iter().any(|listed| listed.prefix == record.prefix)
        && ia.prefixes.iter().all(|listed| listed.excluded.is_none() || listed.excluded == record.excluded())
}

/// T1 is half the preferred lifetime, T2 four fifths, rounded down; both for ever where it is.
pub fn t1_and_t2(preferred: u32) -> (u32, u32) {
    if preferred == FOR_EVER {
        return (FOR_EVER, FOR_EVER);
    }
    (preferred / 2, (preferred as u64 * 4 / 5) as u32)
}

/// An IA_PD with the bound or offered prefix, if any, and then others with lifetimes 0 and no options.
fn with_prefixes(iaid: u32, settings: &Settings, bound: Option<&Record>, others: &[&IaPrefix]) -> Vec<u8> {
    let mut inner = Vec::new();
    let mut times = (0, 0);
    if let Some(record) = bound {
        times = t1_and_t2(settings.preferred);
        inner.extend(
            ia_prefix_option(settings.preferred, settings.valid, record.prefix, record.excluded())
                .expect("the last /64 of a delegation has an encoding"),
        );
    }
    for listed in others {
        inner.extend(ia_prefix_option(0, 0, listed.prefix, None).expect("a read prefix has a length up to 128"));
    }
    ia_pd_option(iaid, times.0, times.1, &inner).expect("at most five prefixes")
}

/// An IA_PD with a status and no prefix.
fn with_status(iaid: u32, status: u16) -> Vec<u8> {
    ia_pd_option(iaid, 0, 0, &status_option(status)).expect("a short text")
}
