//! The wire: one walker over an option area, the message reader, lone readers, and the writers.

use crate::prefix::{decode_excluded, encode_excluded, Prefix};

pub const CLIENT_ID: u16 = 1;
pub const SERVER_ID: u16 = 2;
pub const OPTION_REQUEST: u16 = 6;
pub const STATUS_CODE: u16 = 13;
pub const IA_PD: u16 = 25;
pub const IA_PREFIX: u16 = 26;
pub const PD_EXCLUDE: u16 = 67;

pub const SUCCESS: u16 = 0;
pub const NO_BINDING: u16 = 3;
pub const NO_PREFIX_AVAIL: u16 = 6;

pub const SHORTEST_MESSAGE: usize = 4;
pub const LONGEST_MESSAGE: usize = 1_232;

/// Why a text isn't read.
#[derive(Clone, Copy, PartialEq, Eq, Debug)]
pub enum Why {
    /// Under 4 or over 1,232 bytes (number 3; all others are number 5).
    TextLength,
    /// One to three bytes left over.
    LeftOver,
    /// A length running past its enclosing area.
    RunsPast,
    /// An Option Request of odd length.
    OptionRequestOdd,
    /// A Status Code under 2 bytes.
    StatusShort,
    /// An IA_PD under 12 bytes.
    IaPdShort,
    /// An IA Prefix under 25 bytes.
    IaPrefixShort,
    /// A prefix length over 128.
    PrefixLength,
    /// Excluded length not from a+1 to 128.
    ExcludedLength,
    /// Content length of a PD Exclude other than 1 + ceil((b-a)/8).
    ExcludeContentLength,
    /// A pad bit of 1.
    ExcludePad,
    /// A second PD Exclude in one IA Prefix.
    ExcludeTwice,
    /// A lone option with another code.
    OtherCode,
    /// A lone option that doesn't fill its text.
    NotFilled,
}

/// A text that isn't read: the refusal number, the place where it breaks (the first byte of the option, or of
/// the left-over bytes) and why.
#[derive(Clone, Copy, PartialEq, Eq, Debug)]
pub struct Broken {
    pub number: u8,
    pub place: usize,
    pub why: Why,
}

impl Broken {
    fn malformed(place: usize, why: Why) -> Broken {
        Broken { number: 5, place, why }
    }
}

/// One option as the walker finds it: its code, its first byte's place, and the stretch of its content.
#[derive(Clone, Copy, PartialEq, Eq, Debug)]
pub struct Found {
    pub code: u16,
    pub place: usize,
    pub from: usize,
    pub to: usize,
}

/// Keeps the message and its place; steps through one area of it.
#[derive(Clone, Debug)]
pub struct Walker<'m> {
    message: &'m [u8],
    place: usize,
    end: usize,
}

impl<'m> Walker<'m> {
    pub fn new(message: &'m [u8], from: usize, to: usize) -> Walker<'m> {
        Walker { message, place: from, end: to }
    }

    /// The next option of the area, or None at its end.
    pub fn step(&mut self) -> Result<Option<Found>, Broken> {
        let place = self.place;
        let rest = self.end - place;
        if rest == 0 {
            return Ok(None);
        }
        if rest < 4 {
            return Err(Broken::malformed(place, Why::LeftOver));
        }
        let code = u16_at(self.message, place);
        let length = u16_at(self.message, place + 2) as usize;
        if length > rest - 4 {
            return Err(Broken::malformed(place, Why::RunsPast));
        }
        self.place = place + 4 + length;
        Ok(Some(Found { code, place, from: place + 4, to: self.place }))
    }
}

/// An IA Prefix as read.
#[derive(Clone, PartialEq, Eq, Debug)]
pub struct IaPrefix {
    pub preferred: u32,
    pub valid: u32,
    /// Length and bits as sent, stray bits too.
    pub prefix: Prefix,
    pub excluded: Option<Prefix>,
    pub statuses: Vec<u16>,
}

/// An IA_PD as read.
#[derive(Clone, PartialEq, Eq, Debug)]
pub struct IaPd {
    pub iaid: u32,
    pub t1: u32,
    pub t2: u32,
    pub prefixes: Vec<IaPrefix>,
    pub statuses: Vec<u16>,
}

/// A well-formed message as read. The DUIDs are stretches of the message itself.
#[derive(Clone, PartialEq, Eq, Debug)]
pub struct Message<'m> {
    pub kind: u8,
    pub transaction: u32,
    pub client_ids: Vec<&'m [u8]>,
    pub server_ids: Vec<&'m [u8]>,
    /// Code 67 stands in an Option Request.
    pub asks_exclude: bool,
    pub ia_pds: Vec<IaPd>,
    pub statuses: Vec<u16>,
}

impl Message<'_> {
    /// A Status Code with this number stands at some read level.
    pub fn has_status(&self, status: u16) -> bool {
        self.statuses.contains(&status)
            || self.ia_pds.iter().any(|ia| {
                ia.statuses.contains(&status) || ia.prefixes.iter().any(|listed| listed.statuses.contains(&status))
            })
    }
}

/// Reads a whole message of any type: 3 by its length, then 5 where it breaks.
pub fn read_message(message: &[u8]) -> Result<Message<'_>, Broken> {
    text_length(message)?;
    let mut read = Message {
        kind: message[0],
        transaction: u32::from_be_bytes([0, message[1], message[2], message[3]]),
        client_ids: Vec::new(),
        server_ids: Vec::new(),
        asks_exclude: false,
        ia_pds: Vec::new(),
        statuses: Vec::new(),
    };
    let mut walker = Walker::new(message, 4, message.len());
    while let Some(found) = walker.step()? {
        let content = &message[found.from..found.to];
        match found.code {
            CLIENT_ID => read.client_ids.push(content),
            SERVER_ID => read.server_ids.push(content),
            OPTION_REQUEST => {
                if content.len() % 2 != 0 {
                    return Err(Broken::malformed(found.place, Why::OptionRequestOdd));
                }
                if content.chunks_exact(2).any(|code| u16_at(code, 0) == PD_EXCLUDE) {
                    read.asks_exclude = true;
                }
            }
            STATUS_CODE => read.statuses.push(read_status(message, found)?),
            IA_PD => read.ia_pds.push(read_ia_pd(message, found)?),
            _ => {}
        }
    }
    Ok(read)
}

fn read_status(message: &[u8], found: Found) -> Result<u16, Broken> {
    if found.to - found.from < 2 {
        return Err(Broken::malformed(found.place, Why::StatusShort));
    }
    Ok(u16_at(message, found.from))
}

fn read_ia_pd(message: &[u8], found: Found) -> Result<IaPd, Broken> {
    if found.to - found.from < 12 {
        return Err(Broken::malformed(found.place, Why::IaPdShort));
    }
    let mut read = IaPd {
        iaid: u32_at(message, found.from),
        t1: u32_at(message, found.from + 4),
        t2: u32_at(message, found.from + 8),
        prefixes: Vec::new(),
        statuses: Vec::new(),
    };
    let mut walker = Walker::new(message, found.from + 12, found.to);
    while let Some(inner) = walker.step()? {
        match inner.code {
            STATUS_CODE => read.statuses.push(read_status(message, inner)?),
            IA_PREFIX => read.prefixes.push(read_ia_prefix(message, inner)?),
            _ => {}
        }
    }
    Ok(read)
}

fn read_ia_prefix(message: &[u8], found: Found) -> Result<IaPrefix, Broken> {
    if found.to - found.from < 25 {
        return Err(Broken::malformed(found.place, Why::IaPrefixShort));
    }
    let length = message[found.from + 8];
    if length > 128 {
        return Err(Broken::malformed(found.place, Why::PrefixLength));
    }
    let mut read = IaPrefix {
        preferred: u32_at(message, found.from),
        valid: u32_at(message, found.from + 4),
        prefix: Prefix::new(u128_at(message, found.from + 9), length),
        excluded: None,
        statuses: Vec::new(),
    };
    let mut walker = Walker::new(message, found.from + 25, found.to);
    while let Some(inner) = walker.step()? {
        match inner.code {
            STATUS_CODE => read.statuses.push(read_status(message, inner)?),
            PD_EXCLUDE => {
                if read.excluded.is_some() {
                    return Err(Broken::malformed(inner.place, Why::ExcludeTwice));
                }
                let excluded = decode_excluded(read.prefix, &message[inner.from..inner.to])
                    .map_err(|why| Broken::malformed(inner.place, why))?;
                read.excluded = Some(excluded);
            }
            _ => {}
        }
    }
    Ok(read)
}

/// The Client ID's content as a stretch of the message; empty where there isn't exactly one.
pub fn client_id(message: &[u8]) -> Result<&[u8], Broken> {
    let read = read_message(message)?;
    Ok(match read.client_ids[..] {
        [only] => only,
        _ => &message[..0],
    })
}

/// A lone option that fills its text: its content. 3 by the text's length, then 5.
fn lone(text: &[u8], code: u16) -> Result<Found, Broken> {
    text_length(text)?;
    if u16_at(text, 0) != code {
        return Err(Broken::malformed(0, Why::OtherCode));
    }
    if u16_at(text, 2) as usize + 4 != text.len() {
        return Err(Broken::malformed(0, Why::NotFilled));
    }
    Ok(Found { code, place: 0, from: 4, to: text.len() })
}

/// Reads a lone PD Exclude as it would stand inside `parent`.
pub fn read_lone_exclude(parent: Prefix, text: &[u8]) -> Result<Prefix, Broken> {
    let found = lone(text, PD_EXCLUDE)?;
    decode_excluded(parent, &text[found.from..found.to]).map_err(|why| Broken::malformed(0, why))
}

/// Reads a lone IA Prefix.
pub fn read_lone_ia_prefix(text: &[u8]) -> Result<IaPrefix, Broken> {
    let found = lone(text, IA_PREFIX)?;
    read_ia_prefix(text, found)
}

/// Reads a lone IA_PD.
pub fn read_lone_ia_pd(text: &[u8]) -> Result<IaPd, Broken> {
    let found = lone(text, IA_PD)?;
    read_ia_pd(text, found)
}

fn text_length(text: &[u8]) -> Result<(), Broken> {
    if text.len() < SHORTEST_MESSAGE || text.len() > LONGEST_MESSAGE {
        return Err(Broken { number: 3, place: 0, why: Why::TextLength });
    }
    Ok(())
}

/// One option: code, length, content. None where the content is over 65,535 bytes.
pub fn option(code: u16, content: &[u8]) -> Option<Vec<u8>> {
    let length = u16::try_from(content.len()).ok()?;
    let mut text = Vec::with_capacity(4 + content.len());
    text.extend_from_slice(&code.to_be_bytes());
    text.extend_from_slice(&length.to_be_bytes());
    text.extend_from_slice(content);
    Some(text)
}

/// A PD Exclude inside `parent`; None where there is no encoding.
pub fn exclude_option(parent: Prefix, excluded: Prefix) -> Option<Vec<u8>> {
    option(PD_EXCLUDE, &encode_excluded(parent, excluded)?)
}

/// An IA Prefix with its PD Exclude, if it has one; None where there is no encoding.
pub fn ia_prefix_option(preferred: u32, valid: u32, prefix: Prefix, excluded: Option<Prefix>) -> Option<Vec<u8>> {
    if prefix.length > 128 {
        return None;
    }
    let mut content = Vec::new();
    content.extend_from_slice(&preferred.to_be_bytes());
    content.extend_from_slice(&valid.to_be_bytes());
    content.push(prefix.length);
    content.extend_from_slice(&prefix.bits.to_be_bytes());
    if let Some(excluded) = excluded {
        content.extend(exclude_option(prefix, excluded)?);
    }
    option(IA_PREFIX, &content)
}

/// An IA_PD round options already written; None where it is too long.
pub fn ia_pd_option(iaid: u32, t1: u32, t2: u32, inner: &[u8]) -> Option<Vec<u8>> {
    let mut content = Vec::new();
    content.extend_from_slice(&iaid.to_be_bytes());
    content.extend_from_slice(&t1.to_be_bytes());
    content.extend_from_slice(&t2.to_be_bytes());
    content.extend_from_slice(inner);
    option(IA_PD, &content)
}

/// The status's name in ASCII, without a closing zero.
pub fn status_name(status: u16) -> &'static [u8] {
    match status {
        SUCCESS => b"Success",
        NO_BINDING => b"NoBinding",
        NO_PREFIX_AVAIL => b"NoPrefixAvail",
        _ => b"",
    }
}

/// A Status Code with its name as text.
pub fn status_option(status: u16) -> Vec<u8> {
    let mut content = status.to_be_bytes().to_vec();
    content.extend_from_slice(status_name(status));
    option(STATUS_CODE, &content).expect("a short text")
}

/// Writes a text into lent room: 5 where there is none, then 2 where the room is shorter; bytes past it stay.
pub fn write_lone(text: Option<Vec<u8>>, room: &mut [u8]) -> u64 {
    let Some(text) = text else {
        return crate::refused(5);
    };
    if room.len() < text.len() {
        return crate::refused(2);
    }
    room[..text.len()].copy_from_slice(&text);
    crate::done(text.len())
}

pub(crate) fn u16_at(bytes: &[u8], at: usize) -> u16 {
    u16::from_be_bytes([bytes[at], bytes[at + 1]])
}

pub(crate) fn u32_at(bytes: &[u8], at: usize) -> u32 {
    let mut four = [0u8; 4];
    four.copy_from_slice(&bytes[at..at + 4]);
    u32::from_be_bytes(four)
}

pub(crate) fn u64_at(bytes: &[u8], at: usize) -> u64 {
    let mut eight = [0u8; 8];
    eight.copy_from_slice(&bytes[at..at + 8]);
    u64::from_be_bytes(eight)
}

pub(crate) fn u128_at(bytes: &[u8], at: usize) -> u128 {
    let mut sixteen = [0u8; 16];
    sixteen.copy_from_slice(&bytes[at..at + 16]);
    u128::from_be_bytes(sixteen)
}
