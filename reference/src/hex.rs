//! Byte strings as CALLS.md writes them: lower-case hex, `-` for the empty one.

fn digit_value(digit: u8) -> Option<u8> {
    match digit {
        b'0'..=b'9' => Some(digit - b'0'),
        b'a'..=b'f' => Some(digit - b'a' + 10),
        _ => None,
    }
}

/// Digits only, two for each byte; no `-` here.
pub fn read_digits(digits: &[u8]) -> Option<Vec<u8>> {
    if digits.len() % 2 == 1 {
        return None;
    }
    let pairs = digits.chunks(2);
    pairs.map(|pair| Some(digit_value(pair[0])? * 16 + digit_value(pair[1])?)).collect()
}

/// A byte string of at most `limit` bytes. An empty word is no byte string.
pub fn read(word: &[u8], limit: usize) -> Option<Vec<u8>> {
    if word == b"-" {
        return Some(Vec::new());
    }
    if word.is_empty() || word.len() > 2 * limit {
        return None;
    }
    read_digits(word)
}

pub fn write(bytes: &[u8]) -> String {
    if bytes.is_empty() {
        return "-".to_string();
    }
    bytes.iter().map(|byte| format!("{byte:02x}")).collect()
}
