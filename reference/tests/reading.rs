//! What CALLS.md says about lines: what is read, what writes nothing, what writes `?`.

use reference::script::{self, Desk};
use std::io::BufReader;

fn run(input: &[u8]) -> Vec<u8> {
    let mut output = Vec::new();
    // A tiny buffer, so that lines are cut in the middle while they are read.
    script::run(&mut BufReader::with_capacity(7, input), &mut output).unwrap();
    output
}

fn run_text(input: &str) -> String {
    String::from_utf8(run(input.as_bytes())).unwrap()
}

fn is_readable(line: &[u8]) -> bool {
    Desk::default().answer(line).is_some_and(|answer| answer != b"?")
}

#[test]
fn silent_lines() {
    assert_eq!(run_text(""), "");
    assert_eq!(run_text("\n\n\n"), "");
    assert_eq!(run_text("# two  spaces\r\n#\n#make"), "");
}

#[test]
fn last_line_without_lf_counts() {
    assert_eq!(run_text("state 0"), "0 0 -\n");
    assert_eq!(run_text("state 0\n"), "0 0 -\n");
    assert_eq!(run_text("guess 0 1\nfrotz"), "0 1 1\n?\n");
}

#[test]
fn case_forgets_all_sessions() {
    let make = format!("make 3 {} {} 2 -", "00".repeat(16), "00".repeat(14));
    let script = format!("{make}\nstate 3\ncase a b \u{e4}\nstate 3\n");
    assert_eq!(run_text(&script), "0\n1 2 -\ncase a b \u{e4}\n0 0 -\n");
    // An unreadable one forgets nothing.
    let script = format!("{make}\ncase\ncase \ncase a  b\ncase a\r\nstate 3\n");
    assert_eq!(run_text(&script), "0\n?\n?\n?\n?\n1 2 -\n");
}

#[test]
fn words_and_spaces() {
    assert!(is_readable(b"state 0"));
    for line in ["state", "state 0 0", " state 0", "state 0 ", "state  0", " ", "state 0\r", "\r"] {
        assert!(!is_readable(line.as_bytes()), "{line:?}");
    }
    assert!(!is_readable(b"state\t0"));
    assert!(!is_readable(b"\xff\xfe"));
    assert!(!is_readable(b"STATE 0"));
}

#[test]
fn numbers() {
    let zeros = "0".repeat(10_000);
    for line in [
        "state 7".to_string(),
        "protect 0 18446744073709551615 -".to_string(),
        format!("protect 0 {zeros}18446744073709551615 -"),
        "make 0 - - 18446744073709551615 -".to_string(),
        "add 0 00000000 s 4294967295".to_string(),
        "guess 281474976710655 65535".to_string(),
        "find 255 -".to_string(),
        "find 0255 -".to_string(),
    ] {
        assert!(is_readable(line.as_bytes()), "{line:?}");
    }
    for line in [
        "state 8",
        "state -1",
        "state +1",
        "protect 0 18446744073709551616 -",
        "protect 0 99999999999999999999 -",
        "make 0 - - 18446744073709551616 -",
        "make 0 - - -1 -",
        "add 0 00000000 s 4294967296",
        "guess 281474976710656 0",
        "guess 0 65536",
        "find 256 -",
    ] {
        assert!(!is_readable(line.as_bytes()), "{line:?}");
    }
}

#[test]
fn byte_strings() {
    let key = |bytes: usize| format!("make 0 {} - 0 -", "ab".repeat(bytes));
    let salt = |bytes: usize| format!("make 0 - {} 0 -", "ab".repeat(bytes));
    let ids = |bytes: usize| format!("mask bede - {}", "ab".repeat(bytes));
    let buffer = |bytes: usize| format!("protect 0 0 {}", "ab".repeat(bytes));
    let packet = |bytes: usize| format!("find 0 {}", "ab".repeat(bytes));
    let block = |bytes: usize| format!("mask bede {} -", "ab".repeat(bytes));
    for line in [key(1_024), salt(1_024), ids(1_024), buffer(4_096), packet(4_096), block(4_096)] {
        assert!(is_readable(line.as_bytes()));
    }
    for line in [key(1_025), salt(1_025), ids(1_025), buffer(4_097), packet(4_097), block(4_097)] {
        assert!(!is_readable(line.as_bytes()));
    }
    for word in ["a", "abc", "AB", "aB", "0x", "--", "-ab", "ab-", "g0"] {
        assert!(!is_readable(format!("protect 0 0 {word}").as_bytes()), "{word}");
    }
}

#[test]
fn ssrc_way_and_tag() {
    assert!(is_readable(b"add 0 cafebabe s 0"));
    assert!(is_readable(b"add 0 00000000 r 0"));
    for words in ["cafebab s", "cafebabe0 s", "CAFEBABE s", "- s", "cafebabe S", "cafebabe -"] {
        assert!(!is_readable(format!("add 0 {words} 0").as_bytes()), "{words}");
    }
    assert!(is_readable(b"mask bede - -"));
    for tag in ["BEDE", "bed", "bedef", "-", "bedebe"] {
        assert!(!is_readable(format!("mask {tag} - -").as_bytes()), "{tag}");
    }
}

#[test]
fn overlong_lines() {
    let state = |length: usize| format!("state {}\n", "0".repeat(length - 6));
    assert_eq!(run_text(&state(20_000)), "0 0 -\n");
    assert_eq!(run_text(&state(20_001)), "?\n");
    // One `?` for the whole line, and the script goes on behind it.
    let long = "state 0 ".repeat(1_250_000);
    assert_eq!(run_text(&format!("{long}\nstate 0\n")), "?\n0 0 -\n");
    assert_eq!(run_text(&format!("case {}\n", "x".repeat(20_000))), "?\n");
}

#[test]
fn bytes_that_are_no_text() {
    assert_eq!(run(b"\xff\x00\xfe\nstate 0\n"), b"?\n0 0 -\n");
    assert_eq!(run(b"case \xff\x00\n"), b"case \xff\x00\n");
}
