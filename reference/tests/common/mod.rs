//! Builders of the tests' own: nothing here calls the library's writers.
#![allow(dead_code)]

use reference::*;

pub fn hex(text: &str) -> Vec<u8> {
    let digits: Vec<u8> =
        text.chars().filter(|c| !c.is_whitespace()).map(|c| c.to_digit(16).expect("hex") as u8).collect();
    assert!(digits.len() % 2 == 0, "whole bytes");
    digits.chunks(2).map(|two| two[0] * 16 + two[1]).collect()
}

pub fn opt(code: u16, content: &[u8]) -> Vec<u8> {
    let length = content.len() as u16;
    let mut text = vec![(code >> 8) as u8, code as u8, (length >> 8) as u8, length as u8];
    text.extend_from_slice(content);
    text
}

pub fn ia_pd(iaid: u32, t1: u32, t2: u32, inner: &[Vec<u8>]) -> Vec<u8> {
    let mut content = Vec::new();
    for number in [iaid, t1, t2] {
        content.extend_from_slice(&number.to_be_bytes());
    }
    content.extend(inner.concat());
    opt(25, &content)
}

/// `prefix` as eight groups.
pub fn ia_prefix(preferred: u32, valid: u32, length: u8, prefix: [u16; 8], inner: &[Vec<u8>]) -> Vec<u8> {
    let mut content = Vec::new();
    content.extend_from_slice(&preferred.to_be_bytes());
    content.extend_from_slice(&valid.to_be_bytes());
    content.push(length);
    for group in prefix {
        content.extend_from_slice(&group.to_be_bytes());
    }
    content.extend(inner.concat());
    opt(26, &content)
}

/// 2001:db8:0:g::
pub fn at(group: u16) -> [u16; 8] {
    [0x2001, 0x0db8, 0, group, 0, 0, 0, 0]
}

pub const ZERO: [u16; 8] = [0; 8];

pub fn message(kind: u8, transaction: u32, options: &[Vec<u8>]) -> Vec<u8> {
    let mut text = vec![kind, (transaction >> 16) as u8, (transaction >> 8) as u8, transaction as u8];
    text.extend(options.concat());
    text
}

pub fn client(duid: &[u8]) -> Vec<u8> {
    opt(1, duid)
}

pub fn server(duid: &[u8]) -> Vec<u8> {
    opt(2, duid)
}

pub fn asks_67() -> Vec<u8> {
    opt(6, &[0, 67])
}

pub fn status(code: u16, text: &str) -> Vec<u8> {
    let mut content = code.to_be_bytes().to_vec();
    content.extend_from_slice(text.as_bytes());
    opt(13, &content)
}

pub const BOX: [u8; 10] = [0, 3, 0, 1, 0x11, 0x22, 0x33, 0x44, 0x55, 0x66];
pub const ROUTER: [u8; 10] = [0, 3, 0, 1, 0x0a, 0x0b, 0x0c, 0x0d, 0x0e, 0x0f];

/// The pool of E7 to E11: 2001:db8:0:aa00::/56, S 56, D 60; preferred 1,800, valid 3,600.
pub fn start_box(exclusion: u8, now: u64) -> Box<TableBytes> {
    start_box_with(56, 56, 60, 1_800, 3_600, exclusion, now)
}

pub fn start_box_with(p: u8, s: u8, d: u8, preferred: u32, valid: u32, exclusion: u8, now: u64) -> Box<TableBytes> {
    let mut table = Box::new([0xEEu8; TABLE_BYTES]);
    let word =
        pd_box_start(&mut table, 0x2001_0db8_0000_aa00, 0, p, s, d, preferred, valid, exclusion, &BOX, now);
    assert_eq!(word, 0);
    table
}

pub fn start_router(wanted: u8, now: u64) -> StateBytes {
    let mut state = [0xEEu8; STATE_BYTES];
    assert_eq!(pd_router_start(&mut state, &ROUTER, 7, wanted, now), 0);
    state
}

/// The answer's bytes; panics on a refusal. Bytes past the answer must stay.
pub fn handle(table: &mut TableBytes, now: u64, message: &[u8]) -> Vec<u8> {
    let mut room = [0x5Au8; 600];
    let word = pd_box_handle(table, now, message, &mut room);
    assert!(word > 0 && word < 65_536, "refused: {}", word >> 16);
    assert!(room[word as usize..].iter().all(|&byte| byte == 0x5A));
    room[..word as usize].to_vec()
}

/// The refusal number; table and room must stay.
pub fn refusal(table: &mut TableBytes, now: u64, message: &[u8]) -> u64 {
    let before = *table;
    let mut room = [0x5Au8; 512];
    let word = pd_box_handle(table, now, message, &mut room);
    assert!(word >= 65_536, "not refused: length {word}");
    assert_eq!(word % 65_536, 0);
    assert!(before == *table, "a refusal wrote the table");
    assert!(room.iter().all(|&byte| byte == 0x5A), "a refusal wrote the room");
    word / 65_536
}

/// A step of the router that sends.
pub fn send(step: fn(&mut StateBytes, u64, &mut [u8]) -> u64, state: &mut StateBytes, now: u64) -> Vec<u8> {
    let mut room = [0x5Au8; 600];
    let word = step(state, now, &mut room);
    assert!(word > 0 && word < 65_536, "refused: {}", word >> 16);
    assert!(room[word as usize..].iter().all(|&byte| byte == 0x5A));
    room[..word as usize].to_vec()
}

pub fn send_refused(step: fn(&mut StateBytes, u64, &mut [u8]) -> u64, state: &mut StateBytes, now: u64) -> u64 {
    let before = *state;
    let mut room = [0x5Au8; 512];
    let word = step(state, now, &mut room);
    assert!(word >= 65_536, "not refused: length {word}");
    assert_eq!(word % 65_536, 0);
    assert!(before == *state, "a refusal wrote the state");
    assert!(room.iter().all(|&byte| byte == 0x5A), "a refusal wrote the room");
    word / 65_536
}

pub fn receive_refused(state: &mut StateBytes, now: u64, message: &[u8]) -> u64 {
    let before = *state;
    let word = pd_router_receive(state, now, message);
    assert!(word >= 65_536, "not refused");
    assert_eq!(word % 65_536, 0);
    assert!(before == *state, "a refusal wrote the state");
    word / 65_536
}

/// What the router holds at now, 42 bytes or none.
pub fn held(state: &StateBytes, now: u64) -> Vec<u8> {
    let mut room = [0x5Au8; 64];
    let word = pd_router_held(state, now, &mut room);
    assert!(word == 0 || word == 42);
    assert!(room[word as usize..].iter().all(|&byte| byte == 0x5A));
    room[..word as usize].to_vec()
}

pub fn record(table: &TableBytes, index: u64) -> Vec<u8> {
    let mut room = [0x5Au8; 200];
    let word = pd_box_record(table, index, &mut room);
    assert!(word == 0 || word == 153);
    assert!(room[word as usize..].iter().all(|&byte| byte == 0x5A));
    room[..word as usize].to_vec()
}

/// A delegation of 34 bytes by hand: 2001:db8:0:g::/length and, where `excluded` isn't 0, 2001:db8:0:excluded::/64.
pub fn delegation(group: u16, length: u8, excluded: u16) -> Vec<u8> {
    let mut bytes = hex("20010db80000");
    bytes.extend_from_slice(&group.to_be_bytes());
    bytes.extend_from_slice(&[0; 8]);
    bytes.push(length);
    if excluded == 0 {
        bytes.extend_from_slice(&[0; 17]);
    } else {
        bytes.extend(hex("20010db80000"));
        bytes.extend_from_slice(&excluded.to_be_bytes());
        bytes.extend_from_slice(&[0; 8]);
        bytes.push(64);
    }
    bytes
}

/// A record of 153 bytes by hand.
pub fn record_bytes(duid: &[u8], iaid: u32, group: u16, length: u8, excludes: u8, end: u64) -> Vec<u8> {
    let mut bytes = vec![duid.len() as u8];
    bytes.extend_from_slice(&iaid.to_be_bytes());
    bytes.extend(hex("20010db80000"));
    bytes.extend_from_slice(&group.to_be_bytes());
    bytes.push(length);
    bytes.push(excludes);
    bytes.extend_from_slice(&end.to_be_bytes());
    bytes.extend_from_slice(duid);
    bytes.resize(153, 0);
    bytes
}

/// Puts records into a table by hand.
pub fn put_records(table: &mut TableBytes, records: &[Vec<u8>]) {
    table[8..10].copy_from_slice(&(records.len() as u16).to_be_bytes());
    for (i, record) in records.iter().enumerate() {
        table[176 + 153 * i..176 + 153 * (i + 1)].copy_from_slice(record);
    }
}

/// Client IDs for tests with many identities.
pub fn who(n: u16) -> Vec<u8> {
    vec![0xC0, (n >> 8) as u8, n as u8]
}

pub fn request(n: u16, listed: &[Vec<u8>]) -> Vec<u8> {
    message(3, 0x123456, &[client(&who(n)), server(&BOX), ia_pd(9, 0, 0, listed)])
}

pub fn solicit(n: u16, listed: &[Vec<u8>]) -> Vec<u8> {
    message(1, 0x123456, &[client(&who(n)), ia_pd(9, 0, 0, listed)])
}

/// The answer to `request` or `solicit`, Renew or Rebind of `who(n)` with IAID 9, by hand.
pub fn answer(kind: u8, n: u16, t1: u32, t2: u32, inner: &[Vec<u8>]) -> Vec<u8> {
    message(kind, 0x123456, &[client(&who(n)), server(&BOX), ia_pd(9, t1, t2, inner)])
}
