//! Names and numbers in words: kinds, options, statuses, refusals, prefixes, times.

use reference::prefix::Prefix;
use reference::{FOR_EVER, NEVER};
use std::net::Ipv6Addr;

pub fn kind(number: u8) -> &'static str {
    const KINDS: [&str; 13] = [
        "Solicit",
        "Advertise",
        "Request",
        "Confirm",
        "Renew",
        "Rebind",
        "Reply",
        "Release",
        "Decline",
        "Reconfigure",
        "Information-request",
        "Relay-forward",
        "Relay-reply",
    ];
    (number as usize).checked_sub(1).and_then(|at| KINDS.get(at)).copied().unwrap_or("unknown type")
}

pub fn option(code: u16) -> &'static str {
    match code {
        1 => "Client ID",
        2 => "Server ID",
        3 => "IA_NA",
        4 => "IA_TA",
        5 => "IA Address",
        6 => "Option Request",
        7 => "Preference",
        8 => "Elapsed Time",
        9 => "Relay Message",
        11 => "Authentication",
        12 => "Server Unicast",
        13 => "Status Code",
        14 => "Rapid Commit",
        15 => "User Class",
        16 => "Vendor Class",
        17 => "Vendor Options",
        18 => "Interface ID",
        19 => "Reconfigure Message",
        20 => "Reconfigure Accept",
        23 => "DNS Servers",
        24 => "Domain Search List",
        25 => "IA_PD",
        26 => "IA Prefix",
        39 => "Client FQDN",
        64 => "AFTR Name",
        67 => "PD Exclude",
        82 => "SOL_MAX_RT",
        _ => "unknown option",
    }
}

pub fn status(number: u16) -> &'static str {
    match number {
        0 => "Success",
        1 => "UnspecFail",
        2 => "NoAddrsAvail",
        3 => "NoBinding",
        4 => "NotOnLink",
        5 => "UseMulticast",
        6 => "NoPrefixAvail",
        _ => "unknown status",
    }
}

pub fn refusal(number: u64) -> &'static str {
    match number {
        1 => "the time is earlier than the last one, or too large",
        2 => "the room to write in is too short",
        3 => "the message has under 4 or over 1,232 bytes",
        4 => "a type that the box doesn't serve",
        5 => "an option is malformed",
        6 => "Client ID or Server ID missing, repeated or wrong",
        7 => "not exactly one IA_PD, or more than four prefixes in it",
        8 => "a Rebind to be passed over in silence",
        9 => "the table or state is damaged",
        10 => "the settings are bad",
        11 => "an exchange is open",
        12 => "too soon for a new exchange",
        13 => "the state doesn't allow this step",
        14 => "not the message awaited",
        _ => "unknown refusal",
    }
}

pub fn prefix(prefix: Prefix) -> String {
    format!("{}/{}", Ipv6Addr::from(prefix.bits), prefix.length)
}

/// A prefix, with what is excluded of it.
pub fn delegation(whole: Prefix, excluded: Option<Prefix>) -> String {
    match excluded {
        Some(excluded) => format!("{} without {}", prefix(whole), prefix(excluded)),
        None => prefix(whole),
    }
}

pub fn lifetime(seconds: u32) -> String {
    match seconds {
        FOR_EVER => "for ever".to_string(),
        _ => format!("{seconds} s"),
    }
}

/// A moment as seconds of the clock.
pub fn moment(time: u64) -> String {
    match time {
        NEVER => "never".to_string(),
        _ => time.to_string(),
    }
}

/// A moment as hours, minutes and seconds.
pub fn hours(time: u64) -> String {
    match time {
        NEVER => "never".to_string(),
        _ => format!("{:02}:{:02}:{:02}", time / 3_600, time / 60 % 60, time % 60),
    }
}

pub fn count(number: usize, one: &str, many: &str) -> String {
    format!("{number} {}", if number == 1 { one } else { many })
}
