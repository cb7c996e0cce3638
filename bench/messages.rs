//! Messages as real clients send them, and identities as real ones.

use reference::boxed::IDENTITY_ROWS;
use reference::prefix::Prefix;
use reference::wire::{ia_pd_option, ia_prefix_option, option, CLIENT_ID, OPTION_REQUEST, SERVER_ID};

const ELAPSED_TIME: u16 = 8;
const DNS: [u8; 4] = [0, 23, 0, 24];

#[derive(Clone)]
pub struct Identity {
    pub iaid: u32,
    pub duid: Vec<u8>,
}

/// Three bytes for identity i, in no order.
fn serial(i: usize) -> [u8; 3] {
    let [_, own @ ..] = (i as u32).wrapping_mul(0x9E_3779).to_be_bytes();
    own
}

/// Identity i of one maker's devices: DUID-LLTs alike but for the last three bytes, and one IAID for all.
pub fn real(i: usize) -> Identity {
    let duid = [&[0, 1, 0, 1, 0x2e, 0x5b, 0x7c, 0x10, 0x52, 0x54, 0x00], &serial(i)[..]].concat();
    Identity { iaid: 1, duid }
}

fn put(code: u16, content: &[u8]) -> Vec<u8> {
    option(code, content).expect("a short content")
}

/// What stands before the IA_PD: the Server ID only where the kind has one.
pub fn opening(kind: u8, from: &Identity, server: &[u8]) -> Vec<u8> {
    let mut text = vec![kind, 0, 0, 0];
    text.extend(put(CLIENT_ID, &from.duid));
    if IDENTITY_ROWS.contains(&(kind, true)) {
        text.extend(put(SERVER_ID, server));
    }
    text.extend(put(OPTION_REQUEST, &DNS));
    text.extend(put(ELAPSED_TIME, &[0, 0]));
    text
}

/// A whole message, its IA_PD with the listed prefix, if any.
pub fn message(kind: u8, from: &Identity, server: &[u8], listed: Option<Prefix>) -> Vec<u8> {
    let listed = listed.map_or(vec![], |prefix| ia_prefix_option(0, 0, prefix, None).expect("a prefix"));
    let ia_pd = ia_pd_option(from.iaid, 0, 0, &listed).expect("one prefix at most");
    [opening(kind, from, server), ia_pd].concat()
}
