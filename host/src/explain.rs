//! `arsurimo explain`: a captured message, option by option. What is well formed is document 01's "Options on the wire".

use crate::args::{Args, Failure};
use crate::{hex, words};
use reference::prefix::{decode_excluded, Prefix};
use reference::wire::{self, read_message, Broken, Found, Walker, Why};
use std::io::Read;

const HELP: &str = "\
arsurimo explain    reads one captured DHCPv6 message (the UDP payload) as hex from standard input

Spaces, colons, commas, dashes, 0x and line ends between the digits don't matter. Prints a line for each option with the
byte where it begins, and at the end `well formed`, or 3 (the message has under 4 or over 1,232 bytes), or 5 (an option is
malformed).

  echo '01 00 00 07  00 01 00 03 0a 0a 0a' | arsurimo explain
";

/// Of an option that isn't read, so many bytes are shown.
const SHOWN: usize = 24;

pub fn command(args: &mut Args) -> Result<(), Failure> {
    if args.flag("--help") {
        print!("{HELP}");
        return Ok(());
    }
    args.finish()?;
    let mut text = Vec::new();
    std::io::stdin().read_to_end(&mut text).map_err(|why| Failure::Failed(format!("standard input: {why}")))?;
    let text = String::from_utf8_lossy(&text);
    let message = hex::parse(&text).map_err(Failure::Usage)?;
    for line in explain(&message) {
        println!("{line}");
    }
    Ok(())
}

/// The message in lines, the verdict last.
pub fn explain(message: &[u8]) -> Vec<String> {
    let read = read_message(message);
    if let Err(Broken { number: 3, .. }) = read {
        return vec![format!("3: the message has {} bytes, and may have 4 to 1,232", message.len())];
    }
    let broken = read.err();
    let until = broken.map_or(message.len(), |broken| broken.place);
    let mut page = Page { message, until, lines: Vec::new() };
    page.envelope();
    page.area(4, message.len(), Area::Message);
    match broken {
        Some(broken) => page.break_off(broken),
        None => page.lines.push(format!("well formed, {} bytes", message.len())),
    }
    page.lines
}

/// Where an option stands; inside an IA Prefix, in which.
#[derive(Clone, Copy)]
enum Area {
    Message,
    IaPd,
    IaPrefix(Prefix),
}

impl Area {
    fn depth(self) -> usize {
        match self {
            Area::Message => 0,
            Area::IaPd => 1,
            Area::IaPrefix(_) => 2,
        }
    }
}

struct Page<'m> {
    message: &'m [u8],
    /// Everything before this byte is well formed, up to options that enclose it.
    until: usize,
    lines: Vec<String>,
}

impl Page<'_> {
    fn line(&mut self, place: usize, depth: usize, words: &str) {
        self.lines.push(format!("{place:>5}  {:indent$}{words}", "", indent = 2 * depth));
    }

    fn envelope(&mut self) {
        let kind = self.message[0];
        let number = self.number(1, 3);
        self.line(0, 0, &format!("{} ({kind}), transaction 0x{number:06x}", words::kind(kind)));
    }

    fn number(&self, at: usize, bytes: usize) -> u32 {
        self.message[at..at + bytes].iter().fold(0, |sum, &byte| sum << 8 | byte as u32)
    }

    /// The options of one area, as far as they are well formed.
    fn area(&mut self, from: usize, to: usize, area: Area) {
        let mut walker = Walker::new(self.message, from, to);
        while let Ok(Some(found)) = walker.step() {
            if found.place >= self.until {
                return;
            }
            self.option(found, area);
        }
    }

    fn option(&mut self, found: Found, area: Area) {
        let content = &self.message[found.from..found.to];
        let say = |what: String| format!("{}: {what}", title(found));
        let words = match (found.code, area) {
            (wire::CLIENT_ID | wire::SERVER_ID, Area::Message) => say(format!("DUID {}", hex::text(content))),
            (wire::OPTION_REQUEST, Area::Message) => say(asked(content)),
            (wire::STATUS_CODE, _) => say(status(content)),
            (wire::IA_PD, Area::Message) => return self.ia_pd(found),
            (wire::IA_PREFIX, Area::IaPd) => return self.ia_prefix(found),
            (wire::PD_EXCLUDE, Area::IaPrefix(parent)) => say(excluded(parent, content)),
            _ => say(format!("not read here: {}", shown(content))),
        };
        self.line(found.place, area.depth(), &words);
    }

    fn ia_pd(&mut self, found: Found) {
        let [iaid, t1, t2] = [0, 4, 8].map(|at| self.number(found.from + at, 4));
        let times = format!("T1 {}, T2 {}", words::lifetime(t1), words::lifetime(t2));
        self.line(found.place, 0, &format!("{}: IAID {iaid}, {times}", title(found)));
        self.area(found.from + 12, found.to, Area::IaPd);
    }

    fn ia_prefix(&mut self, found: Found) {
        let [preferred, valid] = [0, 4].map(|at| words::lifetime(self.number(found.from + at, 4)));
        let bits = (0..4).fold(0, |sum: u128, at| sum << 32 | self.number(found.from + 9 + 4 * at, 4) as u128);
        let prefix = Prefix::new(bits, self.message[found.from + 8]);
        let stray = if prefix.is_clean() { "" } else { " (with bits after its length)" };
        let whole = format!("{}{stray}, preferred {preferred}, valid {valid}", words::prefix(prefix));
        self.line(found.place, 1, &format!("{}: {whole}", title(found)));
        self.area(found.from + 25, found.to, Area::IaPrefix(prefix));
    }

    /// The option at fault as far as it can be told, and 5.
    fn break_off(&mut self, broken: Broken) {
        let rest = &self.message[broken.place..];
        self.line(broken.place, 0, &format!("here it breaks: {}", shown(rest)));
        self.lines.push(format!("5: an option is malformed ({})", reason(broken.why)));
    }
}

fn title(found: Found) -> String {
    let length = found.to - found.from;
    format!("{} ({}), {}", words::option(found.code), found.code, words::count(length, "byte", "bytes"))
}

fn asked(content: &[u8]) -> String {
    let codes = content.chunks_exact(2).map(|pair| u16::from_be_bytes([pair[0], pair[1]]));
    let names: Vec<String> = codes.map(|code| format!("{} ({code})", words::option(code))).collect();
    if names.is_empty() {
        return "asks for nothing".to_string();
    }
    format!("asks for {}", names.join(", "))
}

fn status(content: &[u8]) -> String {
    let number = u16::from_be_bytes([content[0], content[1]]);
    let text = String::from_utf8_lossy(&content[2..]).escape_debug().to_string();
    format!("{} ({number}), text \"{text}\"", words::status(number))
}

fn excluded(parent: Prefix, content: &[u8]) -> String {
    match decode_excluded(parent, content) {
        Ok(prefix) => format!("excludes {}", words::prefix(prefix)),
        Err(why) => reason(why).to_string(),
    }
}

fn shown(content: &[u8]) -> String {
    match content.len() {
        0 => "empty".to_string(),
        length if length > SHOWN => format!("{} ...", hex::text(&content[..SHOWN])),
        _ => hex::text(content),
    }
}

fn reason(why: Why) -> &'static str {
    match why {
        Why::TextLength => "the text is too short or too long",
        Why::LeftOver => "one to three bytes are left over",
        Why::RunsPast => "its length runs past the area that it stands in",
        Why::OptionRequestOdd => "an Option Request has an odd length",
        Why::StatusShort => "a Status Code has under 2 bytes",
        Why::IaPdShort => "an IA_PD has under 12 bytes",
        Why::IaPrefixShort => "an IA Prefix has under 25 bytes",
        Why::PrefixLength => "a prefix length is over 128",
        Why::ExcludedLength => "the excluded length isn't longer than its prefix's, or is over 128",
        Why::ExcludeContentLength => "a PD Exclude's length doesn't fit its excluded length",
        Why::ExcludePad => "a pad bit of a PD Exclude is 1",
        Why::ExcludeTwice => "a second PD Exclude in one IA Prefix",
        Why::OtherCode => "another option was expected",
        Why::NotFilled => "the option doesn't fill its text",
    }
}

#[cfg(test)]
mod tests;
