//! Octets as hex digits.

const BETWEEN: [char; 2] = [':', '-'];

/// Reads octets of two hex digits each; spaces, colons or hyphens may stand between octets, and `0x`
/// before them. Otherwise gives the first word that is none of this.
///
/// ```
/// use planner::hex;
/// for text in ["bc00A1", "BC 00 a1", "bc:00:a1", "BC-00 A1", "0xbc 0x00a1", " bc\t00 a1\r"] {
///     assert_eq!(hex::read(text), Ok(vec![0xbc, 0x00, 0xa1]));
/// }
/// assert_eq!(hex::read(""), Ok(vec![]));
/// assert_eq!(hex::read("BC AFE 00"), Err("AFE"));
/// assert_eq!(hex::read("0000: BC"), Err("0000:"));
/// assert_eq!(hex::read("0x"), Err("0x"));
/// ```
pub fn read(text: &str) -> Result<Vec<u8>, &str> {
    let mut octets = Vec::with_capacity(text.len() / 2);
    for word in text.split_whitespace() {
        for part in word.split(BETWEEN) {
            take(digits(part), &mut octets).ok_or(word)?;
        }
    }
    Ok(octets)
}

/// Whether a text was meant as octets: nothing but hex digits and what may stand between them,
/// though perhaps not two digits for each octet.
///
/// ```
/// use planner::hex;
/// assert!(hex::is_meant("BC AFE") && hex::is_meant("0xbc:00") && hex::is_meant(""));
/// assert!(!hex::is_meant("frames.txt") && !hex::is_meant("BC 0G"));
/// ```
pub fn is_meant(text: &str) -> bool {
    let mut parts = text.split_whitespace().flat_map(|word| word.split(BETWEEN));
    parts.all(|part| digits(part).bytes().all(|digit| digit.is_ascii_hexdigit()))
}

/// Octets as upper case digits with spaces between them, as document 01 prints them.
///
/// ```
/// assert_eq!(planner::hex::spaced(&[0xbc, 0x00]), "BC 00");
/// ```
pub fn spaced(octets: &[u8]) -> String {
    let pairs: Vec<String> = octets.iter().map(|octet| format!("{octet:02X}")).collect();
    pairs.join(" ")
}

/// Octets as lower case digits with nothing between them, for scripts.
///
/// ```
/// assert_eq!(planner::hex::joined(&[0xbc, 0x00]), "bc00");
/// ```
pub fn joined(octets: &[u8]) -> String {
    octets.iter().map(|octet| format!("{octet:02x}")).collect()
}

fn digits(part: &str) -> &str {
    part.strip_prefix("0x")
        .or_else(|| part.strip_prefix("0X"))
        .unwrap_or(part)
}

fn take(digits: &str, octets: &mut Vec<u8>) -> Option<()> {
    let pairs = digits.as_bytes().chunks_exact(2);
    if digits.is_empty() || !pairs.remainder().is_empty() {
        return None;
    }
    for pair in pairs {
        octets.push(nibble(pair[0])? << 4 | nibble(pair[1])?);
    }
    Some(())
}

fn nibble(digit: u8) -> Option<u8> {
    char::from(digit).to_digit(16).map(|value| value as u8)
}
