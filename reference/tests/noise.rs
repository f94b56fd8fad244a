//! Noise never panics and is answered line by line; random scripts hold what they promise.

use reference::count::Tally;
use reference::parts::{CONTRIBUTORS_IN_CLEAR, MASKS, STRETCHES};
use reference::random;
use reference::random::dice::Dice;
use reference::random::spoil::spoiled;
use reference::script::{self, Desk};
use reference::suite_parts::SUITES;

fn random_script(seed: u64, count: u64) -> Vec<u8> {
    let mut output = Vec::new();
    random::run(seed, count, &mut output).unwrap();
    output
}

fn run(input: &[u8]) -> Vec<u8> {
    let mut output = Vec::new();
    script::run(&mut &input[..], &mut output).unwrap();
    output
}

/// Every line but the silent ones has exactly one answer.
fn check_line_count(input: &[u8]) {
    let mut lines: Vec<&[u8]> = input.split(|byte| *byte == b'\n').collect();
    lines.retain(|line| !line.is_empty() && (line[0] != b'#' || line.len() > 20_000));
    let answers = run(input).iter().filter(|byte| **byte == b'\n').count();
    assert_eq!(answers, lines.len());
}

#[test]
fn binary_noise() {
    let mut dice = Dice::new(1);
    check_line_count(&dice.bytes(300_000));
    check_line_count(&vec![b' '; 100_000]);
    check_line_count(&vec![0; 100_000]);
    for length in 0..60 {
        check_line_count(&dice.bytes(length));
    }
}

/// Scripts with bytes changed, put in and taken out.
#[test]
fn damaged_scripts() {
    let mut dice = Dice::new(2);
    let alphabet = b"0123456789abcdef -\n\r#?sr";
    for seed in 0..10 {
        let mut script = random_script(seed, 400);
        for _ in 0..400 {
            let place = dice.size(0, script.len() - 1);
            match dice.below(3) {
                0 => script[place] = dice.byte(),
                1 => script[place] = dice.pick(alphabet),
                _ => script.insert(place, dice.pick(alphabet)),
            }
        }
        check_line_count(&script);
    }
}

#[test]
fn spoiled_lines_are_unreadable() {
    let mut dice = Dice::new(3);
    let stretch = format!("stretch {} {} 00000000 0 0 ab", "00".repeat(16), "00".repeat(14));
    let lines = [
        "state 0",
        "protect 0 12 800000",
        "make 0 - - 0 -",
        "make 0 - - 0 - gcm",
        "mask bede - -",
        "find 1 -",
        &stretch,
    ];
    for _ in 0..5_000 {
        let line = dice.pick(&lines);
        let spoiled = spoiled(&mut dice, line);
        let answer = Desk::default().answer(&spoiled);
        assert_eq!(answer, Some(b"?".to_vec()), "{}", String::from_utf8_lossy(&spoiled));
    }
}

#[test]
fn random_scripts_are_deterministic_and_counted() {
    assert_eq!(random_script(7, 300), random_script(7, 300));
    assert_ne!(random_script(7, 300), random_script(8, 300));
    let script = random_script(9, 1_234);
    let answers = run(&script);
    let answers = answers.split(|byte| *byte == b'\n').filter(|answer| !answer.is_empty());
    let calls = answers.filter(|answer| *answer != b"?" && !answer.starts_with(b"case "));
    assert_eq!(calls.count(), 1_234);
}

#[test]
fn random_scripts_of_20_000_calls_meet_every_refusal() {
    for seed in [1, 2] {
        let mut desk = Desk::default();
        let mut tally = Tally::default();
        for line in random_script(seed, 20_000).split(|byte| *byte == b'\n') {
            if let Some(answer) = desk.answer(line) {
                tally.note(&desk, line, &answer);
            }
        }
        assert_eq!(tally.absent(), Vec::<String>::new());
        // Change request 2 is seen often enough to show how it stands to the other refusals.
        assert!(tally.part_count(CONTRIBUTORS_IN_CLEAR) >= 100);
        // So is the mask where it goes past, over or far along the keystream's blocks, and so are
        // stretches at the keystream's end and inside its blocks.
        for part in MASKS.into_iter().chain(STRETCHES) {
            assert!(tally.part_count(part) >= 50, "{part:?} {}", tally.part_count(part));
        }
        // Change request 3 has many parts; each comes more than by chance.
        for part in SUITES {
            assert!(tally.part_count(part) >= 5, "{part:?} {}", tally.part_count(part));
        }
    }
}
