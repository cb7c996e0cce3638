//! The pages that are expected, written by hand.

use super::explain;
use crate::hex::parse;

/// A Reply with one IA_PD, in it one IA Prefix (its length and its first eight bytes are given), in it this option.
fn inside(length: &str, prefix: &str, option: &str) -> Vec<u8> {
    let option = parse(option).expect("hex");
    let ia_prefix = 25 + option.len();
    let ia_pd = 12 + 4 + ia_prefix;
    let head = format!("07 00 00 2a  00 19 00 {ia_pd:02x}  00 00 00 01  00 00 00 3c  00 00 00 60");
    let middle =
        format!("00 1a 00 {ia_prefix:02x}  00 00 00 78  00 00 0e 10  {length} {prefix} 00 00 00 00 00 00 00 00");
    let mut message = parse(&format!("{head} {middle}")).expect("hex");
    message.extend(option);
    message
}

fn bee0(option: &str) -> Vec<String> {
    explain(&inside("3b", "20 01 0d b8 de ad be e0", option))
}

fn last(page: &[String]) -> &str {
    page.last().expect("a verdict")
}

#[test]
fn e1() {
    assert_eq!(
        bee0("00 43 00 02 40 78"),
        [
            "    0  Reply (7), transaction 0x00002a",
            "    4  IA_PD (25), 47 bytes: IAID 1, T1 60 s, T2 96 s",
            "   20    IA Prefix (26), 31 bytes: 2001:db8:dead:bee0::/59, preferred 120 s, valid 3600 s",
            "   49      PD Exclude (67), 2 bytes: excludes 2001:db8:dead:beef::/64",
            "well formed, 55 bytes",
        ]
    );
}

#[test]
fn e2() {
    let page = bee0("00 43 00 02 41 7c");
    assert_eq!(page[3], "   49      PD Exclude (67), 2 bytes: excludes 2001:db8:dead:beef:8000::/65");
    assert_eq!(last(&page), "well formed, 55 bytes");
}

#[test]
fn e3_to_e5() {
    let page = bee0("00 43 00 02 40 79");
    assert_eq!(page[3], "   49  here it breaks: 00 43 00 02 40 79");
    assert_eq!(last(&page), "5: an option is malformed (a pad bit of a PD Exclude is 1)");
    let page = bee0("00 43 00 02 3b 78");
    assert_eq!(
        last(&page),
        "5: an option is malformed (the excluded length isn't longer than its prefix's, or is over 128)"
    );
    let page = bee0("00 43 00 03 40 78 00");
    assert_eq!(last(&page), "5: an option is malformed (a PD Exclude's length doesn't fit its excluded length)");
}

#[test]
fn e6() {
    let page = explain(&inside("30", "20 01 0d b8 00 07 00 00", "00 43 00 03 40 12 34"));
    assert_eq!(page[2], "   20    IA Prefix (26), 32 bytes: 2001:db8:7::/48, preferred 120 s, valid 3600 s");
    assert_eq!(page[3], "   49      PD Exclude (67), 3 bytes: excludes 2001:db8:7:1234::/64");
    assert_eq!(last(&page), "well formed, 56 bytes");
}

#[test]
fn a_solicit() {
    let ids = "01 00 00 07  00 01 00 03 0a 0a 0a  00 08 00 02 00 00  00 06 00 02 00 43";
    let ia_pd = "00 19 00 0c  00 00 00 01  00 00 00 00  00 00 00 00";
    assert_eq!(
        explain(&parse(&format!("{ids} {ia_pd}")).expect("hex")),
        [
            "    0  Solicit (1), transaction 0x000007",
            "    4  Client ID (1), 3 bytes: DUID 0a 0a 0a",
            "   11  Elapsed Time (8), 2 bytes: not read here: 00 00",
            "   17  Option Request (6), 2 bytes: asks for PD Exclude (67)",
            "   23  IA_PD (25), 12 bytes: IAID 1, T1 0 s, T2 0 s",
            "well formed, 39 bytes",
        ]
    );
}

#[test]
fn a_status_and_stray_bits() {
    let page = explain(&inside("3b", "20 01 0d b8 de ad be ef", "00 0d 00 0b 00 03 4e 6f 42 69 6e 64 69 6e 67"));
    assert!(page[2].contains("2001:db8:dead:beef::/59 (with bits after its length), preferred"), "{}", page[2]);
    assert_eq!(page[3], "   49      Status Code (13), 11 bytes: NoBinding (3), text \"NoBinding\"");
}

#[test]
fn three() {
    assert_eq!(explain(&[1, 0, 0]), ["3: the message has 3 bytes, and may have 4 to 1,232"]);
    assert_eq!(explain(&[0; 1_233]), ["3: the message has 1233 bytes, and may have 4 to 1,232"]);
    assert_eq!(last(&explain(&[1, 0, 0, 0])), "well formed, 4 bytes");
    assert!(last(&explain(&[1, 0, 0, 0, 0])).starts_with("5: "), "one byte left over");
}

/// Every message gets a page, whatever bytes it has.
#[test]
fn never_fails() {
    let mut random = reference::generate::Random::new(7);
    let good = inside("3b", "20 01 0d b8 de ad be e0", "00 43 00 02 40 78");
    for _ in 0..20_000 {
        let mut message = good.clone();
        for _ in 0..random.from_to(1, 3) {
            let at = random.below(message.len() as u64) as usize;
            message[at] = random.pick(&[0, 1, 2, 6, 13, 25, 26, 67, 128, 129, 255]);
        }
        message.truncate(random.from_to(0, message.len() as u64) as usize);
        let verdict = last(&explain(&message)).to_string();
        assert!(["3: ", "5: ", "well formed, "].iter().any(|start| verdict.starts_with(start)), "{verdict}");
    }
}
