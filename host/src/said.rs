//! A message in a few words: its kind, and what it says of prefixes.

use crate::words;
use reference::wire::{read_message, Message};
use reference::{ADVERTISE, REPLY};

/// For example `Reply: 2001:db8::/60 for 3600 s`.
pub fn said(message: &[u8]) -> String {
    match read_message(message) {
        Ok(read) => {
            let (kind, rest) = (words::kind(read.kind), details(&read));
            let between = if rest.is_empty() { "" } else { ": " };
            format!("{kind}{between}{rest}")
        }
        Err(broken) => format!("a message that can't be read ({})", broken.number),
    }
}

fn details(read: &Message) -> String {
    let answers = matches!(read.kind, ADVERTISE | REPLY);
    let listed = read.ia_pds.iter().flat_map(|ia| &ia.prefixes);
    let prefixes = listed.map(|listed| {
        if !answers && listed.prefix.bits == 0 {
            return format!("any /{}", listed.prefix.length);
        }
        let whole = words::delegation(listed.prefix, listed.excluded);
        match listed.valid {
            0 if answers => format!("{whole} no longer"),
            0 => whole,
            valid => format!("{whole} for {}", words::lifetime(valid)),
        }
    });
    let inner: Vec<u16> = read.ia_pds.iter().flat_map(|ia| ia.statuses.clone()).collect();
    let statuses = if inner.is_empty() { &read.statuses } else { &inner };
    let parts: Vec<String> = prefixes.chain(statuses.iter().map(|&status| words::status(status).to_string())).collect();
    parts.join(", ")
}
