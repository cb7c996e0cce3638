//! What was met: how often each refusal and each kind of answer.

use crate::calls::{Call, OPERATIONS};
use reference::table::Record;
use reference::wire::{read_message, NO_BINDING, NO_PREFIX_AVAIL};
use reference::{REBIND, RELEASE, RENEW, REQUEST, SOLICIT};
use std::collections::BTreeMap;

#[derive(Default)]
pub struct Tally {
    pub inputs: u64,
    refusals: BTreeMap<(usize, u64), u64>,
    answers: BTreeMap<(usize, &'static str), u64>,
}

impl Tally {
    pub fn count(&mut self, call: &Call, before: &[u8], word: u64, after: &[u8], room: &[u8]) {
        self.inputs += 1;
        let operation = call.operation();
        match word >> 16 {
            0 => *self.answers.entry((operation, answer(call, before, word as usize, after, room))).or_default() += 1,
            number => *self.refusals.entry((operation, number)).or_default() += 1,
        }
    }

    pub fn print(&self) {
        for (operation, (name, _)) in OPERATIONS.iter().enumerate() {
            let refused = self.refusals.iter().filter(|(key, _)| key.0 == operation);
            let refused: Vec<String> = refused.map(|(key, times)| format!("{}: {times}", key.1)).collect();
            let done = self.answers.iter().filter(|(key, _)| key.0 == operation);
            let done: Vec<String> = done.map(|(key, times)| format!("{}: {times}", key.1)).collect();
            println!("  {name}: {}; refused {}", done.join(", "), refused.join(", "));
        }
    }

    /// The refusals and answers that ought to have been met and weren't, and refusals that an operation doesn't have.
    pub fn faults(&self) -> Vec<String> {
        let mut faults = Vec::new();
        for (operation, (name, numbers)) in OPERATIONS.iter().enumerate() {
            for number in numbers.iter().filter(|number| !self.refusals.contains_key(&(operation, **number))) {
                faults.push(format!("{name} never refused with {number}"));
            }
            for answer in answers_of(operation).iter().filter(|a| !self.answers.contains_key(&(operation, **a))) {
                faults.push(format!("{name} never gave: {answer}"));
            }
        }
        for (operation, number) in self.refusals.keys() {
            if !OPERATIONS[*operation].1.contains(number) {
                faults.push(format!("{} refused with {number}", OPERATIONS[*operation].0));
            }
        }
        faults
    }
}

/// The kinds of answer that have to be met.
fn answers_of(operation: usize) -> &'static [&'static str] {
    match operation {
        1 => &[
            "Solicit offered",
            "Solicit NoPrefixAvail",
            "Request bound",
            "Request extended",
            "Request NoPrefixAvail",
            "Renew extended",
            "Renew NoBinding",
            "Rebind extended",
            "Rebind all outside",
            "Release freed",
            "Release NoBinding",
        ],
        2 => &["none live", "some live"],
        3 | 13 => &["shown", "none"],
        12 => &["Advertise taken", "prefix taken", "nothing held", "Release closed"],
        _ => &["done"],
    }
}

fn answer(call: &Call, before: &[u8], length: usize, after: &[u8], room: &[u8]) -> &'static str {
    match call {
        Call::BoxHandle { now, message, .. } => served(message[0], before, *now, &room[..length]),
        Call::BoxLive { .. } if length == 0 => "none live",
        Call::BoxLive { .. } => "some live",
        Call::BoxRecord { .. } | Call::RouterHeld { .. } if length == 0 => "none",
        Call::BoxRecord { .. } | Call::RouterHeld { .. } => "shown",
        // Byte 346: the exchange that was open; byte 303: a prefix is held.
        Call::RouterReceive { .. } => match (before[346], after[303]) {
            (SOLICIT, _) => "Advertise taken",
            (RELEASE, _) => "Release closed",
            (_, 0) => "nothing held",
            _ => "prefix taken",
        },
        _ => "done",
    }
}

fn served(kind: u8, before: &[u8], now: u64, answer: &[u8]) -> &'static str {
    let answer = read_message(answer).expect("an answer is well formed");
    let without = answer.has_status(NO_PREFIX_AVAIL) || answer.has_status(NO_BINDING);
    match (kind, without) {
        (SOLICIT, false) => "Solicit offered",
        (SOLICIT, true) => "Solicit NoPrefixAvail",
        (REQUEST, true) => "Request NoPrefixAvail",
        (REQUEST, false) if was_live(before, now, answer.client_ids[0], answer.ia_pds[0].iaid) => "Request extended",
        (REQUEST, false) => "Request bound",
        (RENEW, false) => "Renew extended",
        (RENEW, true) => "Renew NoBinding",
        (REBIND, _) if answer.ia_pds[0].prefixes.iter().all(|listed| listed.valid == 0) => "Rebind all outside",
        (REBIND, _) => "Rebind extended",
        (_, false) => "Release freed",
        (_, true) => "Release NoBinding",
    }
}

/// The identity has a record in the table with an end after now.
fn was_live(table: &[u8], now: u64, duid: &[u8], iaid: u32) -> bool {
    let count = u16::from_be_bytes([table[8], table[9]]) as usize;
    let mut records = table[176..].chunks(153).take(count).filter_map(Record::read);
    records.any(|record| record.is_of(duid, iaid) && record.is_live(now))
}
