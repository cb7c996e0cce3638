//! Messages, tables and states damaged: the damages that reference::generate doesn't make.

use host::{State, Table, ROUTER, TABLE};
use reference::generate::{damage, Node, Random, Tree};
use reference::wire::{IA_PD, IA_PREFIX};

const FIRST_RECORD: usize = 176;
const RECORD: usize = 153;

// ---------------------------------------------------------------- messages

/// A well-formed message as a tree; what isn't one becomes its tail.
fn tree(message: &[u8]) -> Tree {
    let number = u32::from_be_bytes([0, message[1], message[2], message[3]]);
    let (options, tail) = nodes(&message[4..], 0);
    Tree { kind: message[0], transaction: number, options, tail }
}

/// The options of an area at this depth, and the bytes left over.
fn nodes(mut area: &[u8], depth: usize) -> (Vec<Node>, Vec<u8>) {
    let mut found = Vec::new();
    while area.len() >= 4 {
        let code = u16::from_be_bytes([area[0], area[1]]);
        let end = 4 + u16::from_be_bytes([area[2], area[3]]) as usize;
        if end > area.len() {
            break;
        }
        found.push(node(code, &area[4..end], depth));
        area = &area[end..];
    }
    (found, area.to_vec())
}

fn node(code: u16, content: &[u8], depth: usize) -> Node {
    let fixed = match (code, depth) {
        (IA_PD, 0) => 12,
        (IA_PREFIX, 1) => 25,
        _ => content.len(),
    };
    let fixed = fixed.min(content.len());
    let (inner, tail) = nodes(&content[fixed..], depth + 1);
    Node { code, head: content[..fixed].to_vec(), inner, tail, off: 0 }
}

/// All areas of options of the tree, by depth: the message's own, the IA_PDs', the IA Prefixes'.
fn some_area<'t>(r: &mut Random, tree: &'t mut Tree) -> &'t mut Vec<Node> {
    let mut here = &mut tree.options;
    for _ in 0..r.below(3) {
        let deeper: Vec<usize> = (0..here.len()).filter(|&i| !here[i].inner.is_empty()).collect();
        if deeper.is_empty() {
            break;
        }
        let at = r.pick(&deeper);
        here = &mut here[at].inner;
    }
    here
}

/// Two options of one area change places.
fn swap(r: &mut Random, tree: &mut Tree) {
    let area = some_area(r, tree);
    if area.len() > 1 {
        let (i, j) = (r.below(area.len() as u64) as usize, r.below(area.len() as u64) as usize);
        area.swap(i, j);
    }
}

/// An option goes inside another of its area, or inside a copy of itself.
fn nest(r: &mut Random, tree: &mut Tree) {
    let area = some_area(r, tree);
    if area.is_empty() {
        return;
    }
    let i = r.below(area.len() as u64) as usize;
    let inside = area[i].clone();
    let j = r.below(area.len() as u64) as usize;
    area[j].inner.push(inside);
    if i != j && r.once_in(2) {
        area.remove(i);
    }
}

/// Bytes changed, taken out, put in, cut off or added, with no regard for options.
fn scramble(r: &mut Random, text: &mut Vec<u8>) {
    let at = r.below(text.len() as u64 + 1) as usize;
    match r.below(6) {
        0 => text.truncate(at),
        1 => text.extend(vec![r.pick(&[0u8, 255]); r.from_to(1, 40) as usize]),
        2 => text.insert(at, r.word() as u8),
        3 if at < text.len() => {
            text.remove(at);
        }
        4 if at < text.len() => text[at] = r.pick(&[0, 1, 127, 128, 255, text[at].wrapping_add(1)]),
        _ if at < text.len() => text[at] ^= 1 << r.below(8),
        _ => {}
    }
}

/// The message with one to three changes at any depth.
pub fn message(r: &mut Random, message: &[u8]) -> Vec<u8> {
    let mut tree = tree(message);
    let mut bytes = 0;
    for _ in 0..r.pick(&[1, 1, 1, 2, 3]) {
        match r.below(6) {
            0 => swap(r, &mut tree),
            1 => nest(r, &mut tree),
            2 => bytes += 1,
            _ => damage(r, &mut tree),
        }
    }
    let mut text = tree.write();
    for _ in 0..bytes {
        scramble(r, &mut text);
    }
    text
}

// ---------------------------------------------------------------- tables and states

/// One record copied over another, exchanged with another, moved on, taken out, or filled with anything.
pub fn record(r: &mut Random, table: &mut Table) {
    let count = u16::from_be_bytes([table[8], table[9]]).min(256) as usize;
    if count == 0 {
        return;
    }
    let place = |i: usize| FIRST_RECORD + RECORD * i;
    let (i, j) = (r.below(count as u64) as usize, r.below(count as u64) as usize);
    let one: Vec<u8> = table[place(i)..place(i + 1)].to_vec();
    let other: Vec<u8> = table[place(j)..place(j + 1)].to_vec();
    match r.below(5) {
        0 => table[place(j)..place(j + 1)].copy_from_slice(&one),
        1 => {
            table[place(i)..place(i + 1)].copy_from_slice(&other);
            table[place(j)..place(j + 1)].copy_from_slice(&one);
        }
        2 => table.copy_within(place(i)..TABLE - 1, place(i) + 1),
        3 => table[place(i)..place(i + 1)].fill(r.pick(&[0, 0, 255])),
        _ => {
            let anything = r.bytes(RECORD);
            table[place(i)..place(i + 1)].copy_from_slice(&anything);
        }
    }
}

/// Any bytes, or a few bytes of any kind in the header of a table of zeros.
pub fn any_table(r: &mut Random) -> Box<Table> {
    let mut table = Box::new([r.pick(&[0u8, 0, 255]); TABLE]);
    let (from, to) =
        r.pick(&[(0, TABLE), (0, FIRST_RECORD), (10, FIRST_RECORD), (FIRST_RECORD, FIRST_RECORD + RECORD)]);
    let anything = r.bytes(to - from);
    table[from..to].copy_from_slice(&anything);
    table
}

/// Where each field of a state begins and ends (docs/INTERFACE.md).
const FIELDS: [(usize, usize); 17] = [
    (0, 8),
    (8, 16),
    (16, 24),
    (24, 32),
    (32, 36),
    (36, 37),
    (37, 41),
    (41, 42),
    (42, 172),
    (172, 173),
    (173, 303),
    (303, 304),
    (304, 338),
    (338, 346),
    (346, 347),
    (347, 381),
    (381, 384),
];

/// One field of the state filled with zeros, with ones, with anything, or with the same field of another.
pub fn field(r: &mut Random, state: &mut State, other: &State) {
    let (from, to) = r.pick(&FIELDS);
    match r.below(4) {
        0 => state[from..to].fill(0),
        1 => state[from..to].fill(255),
        2 => {
            let anything = r.bytes(to - from);
            state[from..to].copy_from_slice(&anything);
        }
        _ => state[from..to].copy_from_slice(&other[from..to]),
    }
}

/// Any bytes.
pub fn any_state(r: &mut Random) -> State {
    let mut state = [0; ROUTER];
    if !r.once_in(4) {
        state.copy_from_slice(&r.bytes(ROUTER));
    }
    state
}
