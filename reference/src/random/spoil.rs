//! Lines that cannot be read, after the list in CALLS.md: each one must be answered with `?`. Only
//! what that list settles is made here; places it leaves open are in README.md and open.txt.

use super::dice::Dice;
use crate::hex;

/// Short lines, each with one thing wrong.
const WRONG: [&str; 64] = [
    "frotz 0",
    "State 0",
    "state",
    "state 8",
    "state -1",
    "state +1",
    "state 0 0",
    "state 18446744073709551616",
    "cases 1",
    "make 0 - - 0",
    "make 0 - - 0 - -",
    "make 8 - - 0 -",
    "make 0 - - 18446744073709551616 -",
    "make 0 - - -1 -",
    "make 0 - - x -",
    "make 0 0 - 0 -",
    "make 0 - 0F 0 -",
    "make 0 - - 0 0",
    "make 0 - - 0 1,2",
    "make 0 - - 0 - GCM",
    "make 0 - - 0 - Gcm",
    "make 0 - - 0 - gc",
    "make 0 - - 0 - gcm0",
    "make 0 - - 0 - ctr",
    "make 0 - - 0 - 1",
    "make 0 - - 0 - gcm gcm",
    "make 0 - - 0 - - gcm",
    "make 0 - - 0 - gcm -",
    "make 0 - - 0 gcm",
    "make gcm 0 - - 0 -",
    "make 8 - - 0 - gcm",
    "make 0 - - 18446744073709551616 - gcm",
    "make 0 - - 0 0 gcm",
    "add 0 0000000 s 0",
    "add 0 000000000 s 0",
    "add 0 0000000G s 0",
    "add 0 CAFEBABE s 0",
    "add 0 - s 0",
    "add 0 00000000 S 0",
    "add 0 00000000 sr 0",
    "add 0 00000000 s 4294967296",
    "add 0 00000000 r 99999999999999999999999",
    "add 0 00000000 s",
    "protect 0 18446744073709551616 -",
    "protect 0 1.0 ab",
    "protect 0 0x1 ab",
    "protect 0 1 a",
    "protect 0 1 AB",
    "protect 0 0 --",
    "protect 0 0",
    "unprotect 9 0 -",
    "unprotect 0 1 abc",
    "unprotect 0 1 ag",
    "unprotect 0 1 ab ",
    "find 256 -",
    "find 1 0x",
    "find -",
    "guess 281474976710656 0",
    "guess 0 65536",
    "guess - 0",
    "mask BEDE - -",
    "mask bed - -",
    "mask bede0 - -",
    "mask - - -",
];

/// A line that cannot be read, made from nothing or from a line that can.
pub fn spoiled(dice: &mut Dice, line: &str) -> Vec<u8> {
    match dice.below(13) {
        0..=3 => dice.pick(&WRONG).as_bytes().to_vec(),
        4 => line.replacen(' ', "  ", 1).into_bytes(),
        5 => format!("{line} ").into_bytes(),
        6 => format!(" {line}").into_bytes(),
        7 => format!("{line} 0").into_bytes(),
        8 => without_last_word(line),
        9 => with_byte(dice, line, b'\r'),
        10 => with_byte(dice, line, b'\t'),
        11 => stretch(dice),
        _ if dice.one_in(4) => too_long(dice),
        _ => noise(dice),
    }
}

fn without_last_word(line: &str) -> Vec<u8> {
    // Without its suite alone a making can be read.
    let line = line.strip_suffix(" gcm").unwrap_or(line);
    let end = line.rfind(' ').unwrap_or(0);
    // An empty line would be one that can be read.
    if end == 0 {
        return b"?".to_vec();
    }
    line.as_bytes()[..end].to_vec()
}

/// A CR or a TAB anywhere makes any call unreadable.
fn with_byte(dice: &mut Dice, line: &str, byte: u8) -> Vec<u8> {
    let mut bytes = line.as_bytes().to_vec();
    let place = dice.size(0, bytes.len());
    bytes.insert(place, byte);
    bytes
}

/// One byte over a limit.
fn too_long(dice: &mut Dice) -> Vec<u8> {
    let (buffer, key) = ("ab".repeat(4_097), "ab".repeat(1_025));
    let last = dice.pick(&["", " gcm"]);
    let line = match dice.below(9) {
        0 => format!("protect 0 12 {buffer}"),
        1 => format!("unprotect 0 22 {buffer}"),
        2 => format!("find 1 {buffer}"),
        3 => format!("mask bede {buffer} -"),
        4 => format!("mask bede - {key}"),
        5 => format!("make 0 {key} - 0 -{last}"),
        6 => format!("make 0 - - 0 {key}{last}"),
        7 => format!("make 0 - {key} 0 -{last}"),
        _ => format!("state {}", "0".repeat(20_001 - 6)),
    };
    line.into_bytes()
}

/// What each word of `stretch` must not be, beside strings of a wrong length.
const NO_SSRC: [&str; 8] =
    ["0000000", "000000000", "000000", "0000000000", "-", "CAFEBABE", "0000000g", "0x000000"];
const NO_INDEX: [&str; 9] = [
    "281474976710656",
    "281474976710657",
    "000281474976710656",
    "18446744073709551615",
    "18446744073709551616",
    "-",
    "-1",
    "+1",
    "0x1",
];
const NO_START: [&str; 9] = [
    "18446744073709551616",
    "18446744073709551617",
    "018446744073710600192",
    "340282366920938463463374607431768211456",
    "-",
    "-1",
    "+1",
    "1048576.0",
    "ff",
];
const NO_DATA: [&str; 9] = ["a", "abc", "AB", "aB", "ag", "0x", "--", "-ab", "ab-"];

/// A stretch with one word wrong, too many or too few. The others are right, also where they alone
/// would be refused.
pub fn stretch(dice: &mut Dice) -> Vec<u8> {
    let (key, salt, length) = (dice.bytes(16), dice.bytes(14), dice.size(0, 20));
    let index = dice.pick(&["0", "65536", "281474976710655"]);
    let start = dice.pick(&["0", "7", "1048576", "1048577", "18446744073709551615"]);
    let data = hex::write(&dice.bytes(length));
    let ssrc = format!("{:08x}", dice.number_32());
    let right = [hex::write(&key), hex::write(&salt), ssrc, index.into(), start.into(), data];
    let mut words = right.to_vec();
    match dice.below(9) {
        0 => words[0] = wrong_length(dice, 16),
        1 => words[1] = wrong_length(dice, 14),
        2 => words[2] = dice.pick(&NO_SSRC).to_string(),
        3 => words[3] = dice.pick(&NO_INDEX).to_string(),
        4 => words[4] = dice.pick(&NO_START).to_string(),
        5 if dice.one_in(3) => words[5] = "ab".repeat(4_097),
        5 => words[5] = dice.pick(&NO_DATA).to_string(),
        6 => words.swap(0, 1),
        7 => words.truncate(dice.size(0, 5)),
        _ => words.insert(dice.size(0, 6), dice.pick(&right)),
    }
    format!("stretch {}", words.join(" ")).into_bytes()
}

/// Hex digits for more or fewer bytes, or for half a byte more or less, or upper-case ones.
fn wrong_length(dice: &mut Dice, right: usize) -> String {
    let digits = dice.pick(&[
        0,
        2,
        2 * right - 4,
        2 * right - 2,
        2 * right - 1,
        2 * right,
        2 * right + 1,
        2 * right + 2,
        4 * right,
        2_048,
    ]);
    match digits {
        0 => "-".to_string(),
        digits if digits == 2 * right => "A5".repeat(right),
        digits => "b".repeat(digits),
    }
}

/// Bytes of any kind but LF. The first is a `?`, so that it is neither a comment nor a call.
fn noise(dice: &mut Dice) -> Vec<u8> {
    let length = dice.size(0, 40);
    let mut line = vec![b'?'];
    line.extend(dice.bytes(length).iter().filter(|byte| **byte != b'\n'));
    line
}
