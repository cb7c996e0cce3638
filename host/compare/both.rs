//! The same call on both sides, every lent byte compared.

use crate::calls::{plain, proved, Call, Side};
use crate::tally::Tally;

/// Bytes before and after each lent array that nobody may touch.
const MARGIN: usize = 16;
/// What lent room is filled with.
const PATTERN: u8 = 0xA5;

/// Carries out calls. The room is filled with a pattern before, and handed back.
pub trait Library {
    fn call(&mut self, call: &Call, lent: &mut [u8]) -> (u64, Vec<u8>);
}

/// The proved library alone.
pub struct Proved;

impl Library for Proved {
    fn call(&mut self, call: &Call, lent: &mut [u8]) -> (u64, Vec<u8>) {
        let mut room = vec![PATTERN; call.room()];
        let word = proved(call, lent, &mut room);
        (word, room)
    }
}

/// Both sides, compared; what was met is counted.
pub struct Both {
    pub tally: Tally,
}

impl Library for Both {
    fn call(&mut self, call: &Call, lent: &mut [u8]) -> (u64, Vec<u8>) {
        let before = lent.to_vec();
        let one = carried_out(proved, call, &before);
        let other = carried_out(plain, call, &before);
        if one != other {
            tell(call, &before, &one, &other);
            std::process::exit(1);
        }
        let room = within(&one.room).to_vec();
        lent.copy_from_slice(within(&one.lent));
        self.tally.count(call, &before, one.word, lent, &room);
        (one.word, room)
    }
}

/// What a side left: the word, the table or state and the room, each with its margins.
#[derive(PartialEq, Eq)]
struct Left {
    word: u64,
    lent: Vec<u8>,
    room: Vec<u8>,
}

fn carried_out(side: Side, call: &Call, before: &[u8]) -> Left {
    let mut lent = vec![PATTERN; before.len() + 2 * MARGIN];
    within_mut(&mut lent).copy_from_slice(before);
    let mut room = vec![PATTERN; call.room() + 2 * MARGIN];
    let word = side(call, within_mut(&mut lent), within_mut(&mut room));
    Left { word, lent, room }
}

fn within(bytes: &[u8]) -> &[u8] {
    &bytes[MARGIN..bytes.len() - MARGIN]
}

fn within_mut(bytes: &mut [u8]) -> &mut [u8] {
    let end = bytes.len() - MARGIN;
    &mut bytes[MARGIN..end]
}

fn hex(bytes: &[u8]) -> String {
    bytes.iter().map(|byte| format!("{byte:02x}")).collect()
}

fn word(word: u64) -> String {
    format!("refusal {} length {}", word >> 16, word & 0xFFFF)
}

/// Where two arrays differ first, counted from the lent array's own first byte.
fn first_difference(one: &[u8], other: &[u8]) -> String {
    match one.iter().zip(other).position(|(a, b)| a != b) {
        None => "the same".to_string(),
        Some(at) => format!("byte {}: {:02x} and {:02x}", at as i64 - MARGIN as i64, one[at], other[at]),
    }
}

fn tell(call: &Call, before: &[u8], one: &Left, other: &Left) {
    let used = before.iter().rposition(|&byte| byte != 0).map_or(0, |at| at + 1);
    println!("DIFFERENCE, the proved library first, the reference second");
    println!("call: {call:?}");
    println!("lent, {} bytes, zeros after: {}", before.len(), hex(&before[..used]));
    println!("word: {} and {}", word(one.word), word(other.word));
    println!("table or state: {}", first_difference(&one.lent, &other.lent));
    println!("room: {}", first_difference(&one.room, &other.room));
}
