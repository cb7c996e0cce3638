//! Bytes as people paste them: hex digits with spaces, colons, commas, dashes, 0x and line ends between them.

/// The bytes, or what is wrong in words.
pub fn parse(text: &str) -> Result<Vec<u8>, String> {
    let mut digits = Vec::new();
    for word in text.split(|c: char| c.is_whitespace() || ",;:-".contains(c)) {
        let word = word.strip_prefix("0x").or_else(|| word.strip_prefix("0X")).unwrap_or(word);
        let before = digits.len();
        for c in word.chars() {
            let digit = c.to_digit(16).ok_or_else(|| format!("{c:?} isn't a hex digit (in {word:?})"))?;
            digits.push(digit as u8);
        }
        // A single digit is a byte of its own: 0x1, or the 1 of 0:1:f.
        if digits.len() == before + 1 {
            digits.insert(before, 0);
        }
        if digits.len() % 2 != 0 {
            return Err(format!("{word:?} has an odd number of hex digits"));
        }
    }
    Ok(digits.chunks_exact(2).map(|pair| pair[0] << 4 | pair[1]).collect())
}

/// The bytes with spaces between them.
pub fn text(bytes: &[u8]) -> String {
    let pairs: Vec<String> = bytes.iter().map(|byte| format!("{byte:02x}")).collect();
    pairs.join(" ")
}

#[cfg(test)]
mod tests {
    use super::*;

    #[test]
    fn as_pasted() {
        for good in ["01020aff", "01 02 0a ff", "01:02:0A:FF\n", "0x01, 0x02,0xa 0xFF", "0102\n0aff", "1:2:a:ff"] {
            assert_eq!(parse(good), Ok(vec![1, 2, 10, 255]), "{good}");
        }
        assert_eq!(parse(" \n"), Ok(vec![]));
    }

    #[test]
    fn not_hex() {
        assert!(parse("01 0g").unwrap_err().contains("'g'"));
        assert!(parse("010").unwrap_err().contains("odd"));
        assert!(parse("zażółć").is_err());
    }

    #[test]
    fn there_and_back() {
        assert_eq!(text(&[0, 0x43, 0xff]), "00 43 ff");
        assert_eq!(parse(&text(&[0, 0x43, 0xff])), Ok(vec![0, 0x43, 0xff]));
    }
}
