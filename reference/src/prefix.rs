//! Prefixes as 128 bits and a length, and the encoding of an excluded prefix (RFC 6603, 4.2).

use crate::wire::Why;

/// 128 bits and a length. Bits after the length may be set ("stray"): a message can carry such a prefix.
#[derive(Clone, Copy, PartialEq, Eq, Debug)]
pub struct Prefix {
    pub bits: u128,
    pub length: u8,
}

/// The first `length` bits one, the rest zero.
pub const fn mask(length: u8) -> u128 {
    if length == 0 {
        0
    } else if length >= 128 {
        u128::MAX
    } else {
        u128::MAX << (128 - length as u32)
    }
}

impl Prefix {
    pub const fn new(bits: u128, length: u8) -> Prefix {
        Prefix { bits, length }
    }

    /// All bits after the length are zero.
    pub fn is_clean(self) -> bool {
        self.bits & !mask(self.length) == 0
    }

    /// It lies wholly inside the other: at least as long, and the other's bits equal. Stray bits don't matter.
    pub fn lies_in(self, pool: Prefix) -> bool {
        self.length >= pool.length && (self.bits ^ pool.bits) & mask(pool.length) == 0
    }

    /// Some address lies in both.
    pub fn overlaps(self, other: Prefix) -> bool {
        (self.bits ^ other.bits) & mask(self.length.min(other.length)) == 0
    }

    /// The last /64 of a delegation of length at most 64.
    pub fn last_64(self) -> Prefix {
        Prefix::new((self.bits & mask(self.length)) | (mask(64) & !mask(self.length)), 64)
    }
}

/// The content of a PD Exclude (excluded length, then the subnet bits) inside an IA Prefix `parent`.
///
/// None where there is no encoding: a+1 <= b <= 128, the first a bits equal, all bits after b zero.
/// Of the parent only its first a bits are used.
pub fn encode_excluded(parent: Prefix, excluded: Prefix) -> Option<Vec<u8>> {
    let (a, b) = (parent.length, excluded.length);
    if a >= 128 || b <= a || b > 128 {
        return None;
    }
    if (parent.bits ^ excluded.bits) & mask(a) != 0 {
        return None;
    }
    if excluded.bits & !mask(b) != 0 {
        return None;
    }
    let moved_left = excluded.bits << a;
    let bytes = (b - a).div_ceil(8) as usize;
    let mut content = vec![b];
    content.extend_from_slice(&moved_left.to_be_bytes()[..bytes]);
    Some(content)
}

/// The excluded prefix that the content of a PD Exclude inside `parent` stands for, or why it is malformed.
pub fn decode_excluded(parent: Prefix, content: &[u8]) -> Result<Prefix, Why> {
    let a = parent.length;
    let Some((&b, subnet)) = content.split_first() else {
        return Err(Why::ExcludeContentLength);
    };
    if a >= 128 || b <= a || b > 128 {
        return Err(Why::ExcludedLength);
    }
    if subnet.len() != (b - a).div_ceil(8) as usize {
        return Err(Why::ExcludeContentLength);
    }
    let mut bytes = [0u8; 16];
    bytes[..subnet.len()].copy_from_slice(subnet);
    let moved_left = u128::from_be_bytes(bytes);
    if moved_left & !mask(b - a) != 0 {
        return Err(Why::ExcludePad);
    }
    Ok(Prefix::new((parent.bits & mask(a)) | (moved_left >> a), b))
}
