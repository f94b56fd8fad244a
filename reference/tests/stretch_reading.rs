//! What can be read as a line `stretch`, and what writes `?`. Key and salt are RFC 3711 B.2's.

use reference::random::dice::Dice;
use reference::random::spoil;
use reference::script::Desk;

fn answer(line: &str) -> String {
    String::from_utf8(Desk::default().answer(line.as_bytes()).unwrap()).unwrap()
}

const RIGHT: [&str; 6] = [
    "2b7e151628aed2a6abf7158809cf4f3c",
    "f0f1f2f3f4f5f6f7f8f9fafbfcfd",
    "00000000",
    "0",
    "0",
    "abcdef",
];

fn with_word(place: usize, word: &str) -> String {
    let mut words = RIGHT;
    words[place] = word;
    answer(&format!("stretch {}", words.join(" ")))
}

#[test]
fn words_that_can_be_read() {
    // Zeros before a number change nothing; the first block is e03ead09..
    for (place, word) in [(3, "000000000000000000000000"), (4, "00000000000000000000000000")] {
        assert_eq!(with_word(place, word), "0 4bf342");
    }
    for index in ["281474976710655", "0281474976710655", "65536"] {
        assert!(with_word(3, index).starts_with("0 "));
    }
    assert_eq!(with_word(4, "18446744073709551615"), "7 abcdef");
    assert_eq!(with_word(4, "0018446744073709551615"), "7 abcdef");
    assert!(with_word(2, "ffffffff").starts_with("0 "));
    assert_eq!(with_word(5, &"00".repeat(4_096)).len(), 2 + 2 * 4_096);
}

#[test]
fn words_that_cannot_be_read() {
    let digits = |count: usize| "a".repeat(count);
    for count in [1, 2, 24, 28, 30, 31, 33, 34, 48, 64, 2_048, 2_050] {
        assert_eq!(with_word(0, &digits(count)), "?", "a key of {count} digits");
    }
    for count in [1, 2, 24, 26, 27, 29, 30, 32, 56, 2_048, 2_050] {
        assert_eq!(with_word(1, &digits(count)), "?", "a salt of {count} digits");
    }
    for count in [1, 2, 6, 7, 9, 10, 16] {
        assert_eq!(with_word(2, &digits(count)), "?", "an SSRC of {count} digits");
    }
    for (place, words) in [
        (0, vec!["-", "2B7E151628AED2A6ABF7158809CF4F3C", "2b7e151628aed2a6abf7158809cf4f3g"]),
        (1, vec!["-", "F0F1F2F3F4F5F6F7F8F9FAFBFCFD", "f0f1f2f3f4f5f6f7f8f9fafbfc--"]),
        (2, vec!["-", "CAFEBABE", "cafebabg", "-afebabe"]),
        (3, vec!["281474976710656", "18446744073709551616", "-", "-1", "+1", "0x1", "1.0", "a"]),
        (4, vec!["18446744073709551616", "36893488147419103232", "-", "-1", "+1", "0x1", "1.0"]),
        (5, vec!["a", "abc", "AB", "aB", "ag", "0x", "--", "-ab", "ab-"]),
    ] {
        for word in words {
            assert_eq!(with_word(place, word), "?", "{place} {word}");
        }
    }
    assert_eq!(with_word(5, &"00".repeat(4_097)), "?");
    // Also where the stretch would be refused.
    let mut words = RIGHT;
    (words[3], words[4]) = ("281474976710656", "1048577");
    assert_eq!(answer(&format!("stretch {}", words.join(" "))), "?");
}

#[test]
fn too_many_and_too_few_words() {
    let right = format!("stretch {}", RIGHT.join(" "));
    assert_eq!(answer(&right), "0 4bf342");
    for (place, word) in RIGHT.into_iter().enumerate() {
        let mut words = RIGHT.to_vec();
        words.remove(place);
        assert_eq!(answer(&format!("stretch {}", words.join(" "))), "?");
        let mut words = RIGHT.to_vec();
        words.insert(place, word);
        assert_eq!(answer(&format!("stretch {}", words.join(" "))), "?");
    }
    for line in ["stretch", "stretch ", "stretch 0", "Stretch", "stretches"] {
        assert_eq!(answer(line), "?");
    }
    for line in [
        format!("{right} 0"),
        format!("{right} "),
        format!(" {right}"),
        format!("{right}\r"),
        right.replacen(' ', "  ", 1),
        right.replacen(' ', "\t", 1),
        right.replacen("stretch", "Stretch", 1),
        right.replacen("stretch", "stretch 0", 1),
    ] {
        assert_eq!(answer(&line), "?", "{line:?}");
    }
}

/// A line cut anywhere, and with any byte changed, is answered and never panics. What is left of it
/// is readable only inside the data, and behind a whole byte of it.
#[test]
fn noise() {
    let right = format!("stretch {}", RIGHT.join(" "));
    let data = right.len() - RIGHT[5].len();
    for end in 1..right.len() {
        let is_readable = end > data && (end - data).is_multiple_of(2);
        assert_eq!(answer(&right[..end]) != "?", is_readable, "{}", &right[..end]);
    }
    let mut dice = Dice::new(12);
    for _ in 0..20_000 {
        let mut line = right.clone().into_bytes();
        for _ in 0..dice.between(1, 3) {
            let place = dice.size(0, line.len() - 1);
            line[place] =
                if dice.one_in(2) { dice.byte() } else { dice.pick(b"0123456789abcdef -") };
        }
        line.retain(|byte| *byte != b'\n');
        if line[0] != b'#' {
            let answered = Desk::default().answer(&line).unwrap();
            assert!(answered == b"?" || answered.starts_with(b"0 ") || answered.starts_with(b"7 "));
        }
    }
    for _ in 0..3_000 {
        let line = spoil::stretch(&mut dice);
        let answered = Desk::default().answer(&line).unwrap();
        assert_eq!(answered, b"?", "{}", String::from_utf8_lossy(&line));
    }
}
