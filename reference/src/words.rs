//! The words of a call script's line, after CALLS.md. Every reader here gives None for what cannot
//! be read; the script then writes `?`.

use crate::hex;
use crate::session::Way;
use crate::suite::Suite;

/// Limits on byte strings, in bytes.
const LONGEST_BUFFER: usize = 4_096;
const LONGEST_KEY: usize = 1_024;

/// Splits at single spaces. A space at the line's begin or end and two in a row leave an empty
/// word, and a CR is in no word: such a line cannot be read, whatever its first word is.
pub fn split(line: &[u8]) -> Option<Vec<&[u8]>> {
    if line.contains(&b'\r') {
        return None;
    }
    let words: Vec<&[u8]> = line.split(|byte| *byte == b' ').collect();
    let has_empty_word = words.iter().any(|word| word.is_empty());
    (!has_empty_word).then_some(words)
}

/// Digits only, at most 2^64 - 1. Leading zeros are allowed, as many as the line holds.
pub fn number(word: &[u8]) -> Option<u64> {
    if word.is_empty() {
        return None;
    }
    let mut number: u64 = 0;
    for digit in word {
        if !digit.is_ascii_digit() {
            return None;
        }
        number = number.checked_mul(10)?.checked_add(u64::from(digit - b'0'))?;
    }
    Some(number)
}

fn number_up_to(word: &[u8], most: u64) -> Option<u64> {
    number(word).filter(|number| *number <= most)
}

/// A session is a number too: `07` is session 7.
pub fn session(word: &[u8]) -> Option<usize> {
    number_up_to(word, 7)?.try_into().ok()
}

pub fn rollover(word: &[u8]) -> Option<u32> {
    number(word)?.try_into().ok()
}

pub fn sequence(word: &[u8]) -> Option<u16> {
    number(word)?.try_into().ok()
}

pub fn id(word: &[u8]) -> Option<u8> {
    number(word)?.try_into().ok()
}

pub fn index(word: &[u8]) -> Option<u64> {
    number_up_to(word, (1 << 48) - 1)
}

pub fn highest(word: &[u8]) -> Option<i128> {
    Some(i128::from(index(word)?))
}

pub fn way(word: &[u8]) -> Option<Way> {
    match word {
        b"s" => Some(Way::Sending),
        b"r" => Some(Way::Receiving),
        _ => None,
    }
}

/// What may follow IDS on a line `make`: nothing, or one word for the second suite.
pub fn suite(words: &[&[u8]]) -> Option<Suite> {
    match words {
        [] => Some(Suite::CounterMode),
        [b"gcm"] => Some(Suite::Gcm),
        _ => None,
    }
}

/// Eight hex digits.
pub fn ssrc(word: &[u8]) -> Option<u32> {
    let bytes = hex::read_digits(word)?;
    Some(u32::from_be_bytes(bytes.try_into().ok()?))
}

/// Four hex digits.
pub fn tag(word: &[u8]) -> Option<u16> {
    let bytes = hex::read_digits(word)?;
    Some(u16::from_be_bytes(bytes.try_into().ok()?))
}

/// A buffer, a packet, a block, or the data of `stretch`.
pub fn buffer(word: &[u8]) -> Option<Vec<u8>> {
    hex::read(word, LONGEST_BUFFER)
}

/// A KEY, a SALT or IDS.
pub fn key(word: &[u8]) -> Option<Vec<u8>> {
    hex::read(word, LONGEST_KEY)
}

/// A KEY or a SALT that has to have its length.
pub fn key_of<const N: usize>(word: &[u8]) -> Option<[u8; N]> {
    key(word)?.try_into().ok()
}
