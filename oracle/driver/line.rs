//! Hex, and the form of a payload line.

const DIGITS: &[u8; 16] = b"0123456789ABCDEF";

/// Upper-case digits.
pub fn hex(bytes: &[u8]) -> String {
    let mut s = String::with_capacity(bytes.len() * 2);
    for x in bytes {
        s.push(DIGITS[(x >> 4) as usize] as char);
        s.push(DIGITS[(x & 15) as usize] as char);
    }
    s
}

fn nibble(c: u8) -> Option<u8> {
    match c {
        b'0'..=b'9' => Some(c - b'0'),
        b'a'..=b'f' => Some(c - b'a' + 10),
        b'A'..=b'F' => Some(c - b'A' + 10),
        _ => None,
    }
}

/// The bytes of digit pairs of either case; None for any other text.
pub fn unhex(text: &[u8]) -> Option<Vec<u8>> {
    if text.len() % 2 != 0 {
        return None;
    }
    text.chunks(2).map(|c| Some(nibble(c[0])? << 4 | nibble(c[1])?)).collect()
}

/// Letter and payload of a line: the letter, one space, then the payload's digits.
pub fn payload_of(line: &[u8], max_pairs: usize) -> Option<(u8, Vec<u8>)> {
    let [letter, b' ', digits @ ..] = line else { return None };
    Some((*letter, bytes_of(digits, max_pairs)?))
}

/// The bytes of `-` or of 1 to `max_pairs` digit pairs.
pub fn bytes_of(digits: &[u8], max_pairs: usize) -> Option<Vec<u8>> {
    match digits {
        b"-" => Some(Vec::new()),
        _ if digits.is_empty() || digits.len() > 2 * max_pairs => None,
        _ => unhex(digits),
    }
}
