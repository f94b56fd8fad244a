//! The program's three commands, run as a user runs them.

use std::io::Write;
use std::process::{Command, Output, Stdio};

fn reference(arguments: &[&str], input: &[u8]) -> Output {
    let mut child = Command::new(env!("CARGO_BIN_EXE_reference"))
        .args(arguments)
        .stdin(Stdio::piped())
        .stdout(Stdio::piped())
        .stderr(Stdio::piped())
        .spawn()
        .unwrap();
    let mut stdin = child.stdin.take().unwrap();
    let input = input.to_vec();
    // The program may answer before it has read all, so both pipes are served at once.
    let writer = std::thread::spawn(move || {
        let _ = stdin.write_all(&input);
    });
    let output = child.wait_with_output().unwrap();
    writer.join().unwrap();
    output
}

#[test]
fn runs_a_script_with_and_without_its_word() {
    for arguments in [vec![], vec!["run"]] {
        let output = reference(&arguments, b"case 1\nguess 65535 0\nnonsense");
        assert_eq!(output.stdout, b"case 1\n0 65536 1\n?\n");
        assert_eq!(output.status.code(), Some(0));
    }
}

#[test]
fn counts_a_random_script() {
    let script = reference(&["random", "1", "20000"], b"").stdout;
    let output = reference(&["count"], &script);
    assert_eq!(output.status.code(), Some(0));
    assert!(!String::from_utf8(output.stdout).unwrap().contains("absent"));
}

#[test]
fn counts_what_is_absent() {
    let output = reference(&["count"], b"make 0 - - 0 -\nguess 0 0\n");
    assert_eq!(output.status.code(), Some(1));
    let table = String::from_utf8(output.stdout).unwrap();
    assert!(table.contains("absent: make 16 POLICY\n"));
    assert!(!table.contains("absent: make 15 KEYS\n"));
    assert!(!table.contains("absent: guess 13 REPEAT\n"));
    for part in ["0 policy 2, X = 0", "5 X = 0, CC > 0", "5 X = 1"] {
        assert!(table.contains(&format!("absent: unprotect {part}\n")));
        assert!(table.contains(&format!("absent: unprotect gcm {part}\n")));
    }
    // What the second suite cannot give is not missed.
    assert!(table.contains("absent: protect gcm 4 HEADER\n"));
    for impossible in ["add gcm 15", "protect gcm 6", "unprotect gcm 6", "unprotect gcm 8"] {
        assert!(!table.contains(&format!("absent: {impossible}")));
    }
    for part in ["mask crosses 16", "mask skips > 16", "mask block > 64"] {
        assert!(table.contains(&format!("absent: protect 0 {part}\n")));
    }
    for part in ["0 ends at 2^20", "0 out of a block", "0 joins in a block"] {
        assert!(table.contains(&format!("absent: stretch {part}\n")));
    }
    for part in ["LARGE", "ends at 2^20 + 1", "length 0", "end past 64 bits"] {
        assert!(table.contains(&format!("absent: stretch 7 {part}\n")));
    }
}

/// Every refusal comes here, but not each condition of one.
#[test]
fn counts_an_absent_part() {
    let script = reference(&["random", "1", "20000"], b"").stdout;
    let script = String::from_utf8_lossy(&script);
    let has_contributors_only = |line: &&str| {
        let first_byte = line.rsplit(' ').next().and_then(|packet| packet.get(..2));
        let first_byte = first_byte.and_then(|digits| u8::from_str_radix(digits, 16).ok());
        line.starts_with("unprotect ")
            && first_byte.is_some_and(|byte| byte & 0x10 == 0 && byte & 0x0f != 0)
    };
    let lines: Vec<&str> = script.split('\n').filter(|line| !has_contributors_only(line)).collect();
    let output = reference(&["count"], lines.join("\n").as_bytes());
    assert_eq!(output.status.code(), Some(1));
    let table = String::from_utf8(output.stdout).unwrap();
    let absent: Vec<&str> = table.lines().filter(|line| line.starts_with("absent")).collect();
    assert_eq!(
        absent,
        ["absent: unprotect 5 X = 0, CC > 0", "absent: unprotect gcm 5 X = 0, CC > 0"]
    );
}

/// A script without the second suite lacks all that it can give, and nothing else.
#[test]
fn counts_an_absent_suite() {
    let script = reference(&["random", "1", "20000"], b"").stdout;
    let script = String::from_utf8_lossy(&script);
    let lines: Vec<&str> = script.split('\n').filter(|line| !line.ends_with(" gcm")).collect();
    let table = reference(&["count"], lines.join("\n").as_bytes());
    assert_eq!(table.status.code(), Some(1));
    let table = String::from_utf8(table.stdout).unwrap();
    let absent: Vec<&str> = table.lines().filter(|line| line.starts_with("absent")).collect();
    // 2, 2, 10 and 11 refusals; 37 parts of them, and 3 of policy 2.
    let of_gcm = absent.iter().filter(|line| line.contains(" gcm ")).count();
    assert_eq!(of_gcm, 2 + 2 + 10 + 11 + 37 + 3, "{absent:?}");
    let rest: Vec<&&str> = absent.iter().filter(|line| !line.contains(" gcm ")).collect();
    assert_eq!(rest, [&"absent: make 0 was gcm", &"absent: unprotect 14 other suite's"]);
}

/// Policies 1 and 2 take a packet with nothing to hide (RFC 9335's keys and stream), and policy 2
/// refuses three in clear. A line that cannot be read is no part of anything.
#[test]
fn counts_the_parts_of_unprotect() {
    let keys = "e1f97a0d3e018be0d64fa32c06de4139 0ec675ad498afeebb6960b3aabe6";
    let bare = "800f123adecafbadcafebabeda9aff405581a926e3d9f64b25c9e74c29365631a1a5a704453a";
    let mut script = String::new();
    for policy in [1, 2] {
        script += &format!("make {policy} {keys} {policy} -\nadd {policy} cafebabe r 0\n");
        script += &format!("unprotect {policy} 38 {bare}\nunprotect {policy} x {bare}\n");
    }
    for first_byte in ["81", "8f", "90"] {
        script += &format!("unprotect 2 100 {first_byte}{}\n", "00".repeat(99));
    }
    let table = String::from_utf8(reference(&["count"], script.as_bytes()).stdout).unwrap();
    let expected = [
        "unprotect            5",
        "   0 result          2",
        "     policy 2, X = 0       1",
        "   5 PROFILE         3",
        "     X = 0, CC > 0         2",
        "     X = 1                 1",
        "unprotect gcm        0",
    ];
    assert!(table.contains(&expected.join("\n")), "{table}");
}

/// Blocks on both sides of each condition, sent with id 1 listed: under the mask and under another
/// policy, and each a second time, which is refused.
#[test]
fn counts_the_parts_of_protect() {
    let keys = "e1f97a0d3e018be0d64fa32c06de4139 0ec675ad498afeebb6960b3aabe6";
    let two_byte = |front: usize, length: usize, words: usize| {
        let mut block = format!("{}01{length:02x}{}", "00".repeat(front), "ab".repeat(length));
        block += &"00".repeat((8 * words - block.len()) / 2);
        format!("1000{words:04x}{block}")
    };
    let blocks = [
        // Data at 2 to 16 and at 2 to 17.
        two_byte(0, 14, 5),
        two_byte(0, 15, 5),
        // Data at 16 to 18 and at 17 to 19, and none at 17 and at 34.
        two_byte(14, 2, 5),
        two_byte(15, 2, 5),
        two_byte(15, 0, 5),
        two_byte(32, 0, 9),
        // Data 16 bytes behind the last listed data, and the same without that.
        format!("bede0006200010ab{}10cd000000", "00".repeat(15)),
        format!("bede0006200020ab{}10cd000000", "00".repeat(15)),
        // Blocks of 64 and 68 bytes.
        two_byte(0, 1, 16),
        two_byte(0, 1, 17),
    ];
    let mut script = String::new();
    for policy in [0, 3] {
        script += &format!("make {policy} {keys} {policy} 01\nadd {policy} cafebabe s 0\n");
        for (sequence, block) in blocks.iter().enumerate() {
            let packet = format!("9000{sequence:04x}00000000cafebabe{block}");
            let n = packet.len() / 2;
            script += &format!("protect {policy} {n} {packet}{}\n", "ff".repeat(10));
            script += &format!("protect {policy} {n} {packet}{}\n", "ff".repeat(10));
        }
    }
    let table = String::from_utf8(reference(&["count"], script.as_bytes()).stdout).unwrap();
    let expected = [
        "protect             40",
        "   0 result         20",
        "     mask crosses 16       1",
        "     mask skips > 16       2",
        "     mask block > 64       1",
        "  10 ORDER          20",
    ];
    assert!(table.contains(&expected.join("\n")), "{table}");
}

/// Makings of both suites, each condition of change request 3 once and its other side.
#[test]
fn counts_the_parts_of_make() {
    let (key, salt) = ("00".repeat(16), "00".repeat(14));
    let make = |session: u64, salt_length: usize, last: &str| {
        format!("make {session} {key} {} {last}\n", &salt[..2 * salt_length])
    };
    let script = [
        make(0, 14, "0 -"),
        make(0, 12, "2 - gcm"),
        make(0, 12, "1 - gcm"),
        make(0, 14, "3 -"),
        make(0, 12, "0 -"),
        // Behind a refused making there is no suite that was.
        make(0, 12, "0 - gcm"),
        make(0, 13, "0 -"),
        make(0, 14, "0 - gcm"),
        make(0, 13, "3 - gcm"),
        make(0, 12, "3 - gcm"),
        make(0, 12, "4 - gcm"),
        make(0, 12, "2 - gc"),
    ];
    let table =
        String::from_utf8(reference(&["count"], script.concat().as_bytes()).stdout).unwrap();
    let expected = [
        "make                 4",
        "   0 result          2",
        "     was gcm               1",
        "  15 KEYS            2",
        "     salt 12               1",
        "make gcm             7",
        "   0 result          3",
        "     policy 2              1",
        "     was not gcm           1",
        "  15 KEYS            2",
        "     salt 14               1",
        "     policy 3              1",
        "  16 POLICY          2",
        "     policy 3              1",
        "     policy > 3            1",
        "add                  0",
    ];
    assert!(table.contains(&expected.join("\n")), "{table}");
}

/// A packet like RFC 9335 A.2.3's, which has all parts, arrives with each part changed and is then
/// taken.
#[test]
fn counts_what_was_changed() {
    let keys = "000102030405060708090a0b0c0d0e0f a0a1a2a3a4a5a6a7a8a9aaab 1 - gcm";
    let plain = "920f1238decafbadcafebabe0001e2400000b26ebede000151000200ab";
    let mut script =
        format!("make 0 {keys}\nadd 0 cafebabe s 0\nmake 1 {keys}\nadd 1 cafebabe r 0\n");
    script += &format!("protect 0 29 {plain}{}\n", "00".repeat(16));
    let answer = String::from_utf8(reference(&[], script.as_bytes()).stdout).unwrap();
    let wire = answer.lines().last().unwrap().rsplit(' ').next().unwrap().to_string();
    assert_eq!(wire.len(), 2 * 45);
    // Digits: one of each part, one inside the tag, two at once, and none at all.
    let changes: [&[usize]; 10] =
        [&[2], &[24], &[40], &[48], &[56], &[58], &[88], &[70], &[2, 60], &[]];
    for digits in changes {
        let mut copy = wire.clone().into_bytes();
        for place in digits {
            copy[*place] = if copy[*place] == b'a' { b'b' } else { b'a' };
        }
        let copy = String::from_utf8(copy).unwrap();
        script += &format!("unprotect 1 45 {copy}\n");
    }
    let table = String::from_utf8(reference(&["count"], script.as_bytes()).stdout).unwrap();
    for line in [
        "  14 TAG             9",
        "     fixed header          1",
        "     clear CSRC            0",
        "     hidden CSRC           1",
        "     ext. header           1",
        "     clear block           0",
        "     hidden block          1",
        "     payload               1",
        "     first tag byte        1",
        "     last tag byte         1",
        "     other suite's         0",
    ] {
        assert!(table.contains(line), "{line}\n{table}");
    }
}

/// Stretches on both sides of each condition.
#[test]
fn counts_the_parts_of_stretch() {
    let keys = format!("{} {}", "00".repeat(16), "00".repeat(14));
    let line = |index: u64, start: u64, length: usize| {
        let data = if length == 0 { "-".to_string() } else { "ab".repeat(length) };
        format!("stretch {keys} 00000000 {index} {start} {data}\n")
    };
    let end = 1 << 20;
    let stretches = [
        // Up to one before the end, the end, and one and two past it; no bytes at the same places.
        line(0, end - 17, 16),
        line(1, end - 16, 16),
        line(0, end - 15, 16),
        line(0, end - 14, 16),
        line(0, end - 1, 0),
        line(0, end, 0),
        line(0, end + 1, 0),
        line(0, u64::MAX, 0),
        // Sums of 2^64 - 1, 2^64 and 2^64 + 1.
        line(0, u64::MAX - 2, 2),
        line(0, u64::MAX - 1, 2),
        line(0, u64::MAX, 2),
        // From a block's begin over its end; from inside up to its end, and past it.
        line(0, 32, 17),
        line(0, 33, 15),
        line(0, 33, 16),
        // Next to the last one: at a block's begin, in a block, of another index.
        line(0, 0, 16),
        line(0, 16, 2),
        line(0, 18, 3),
        line(1, 21, 1),
        // Not next: a gap, the same place, no bytes, behind one of no bytes or a refused one.
        line(1, 23, 1),
        line(1, 23, 1),
        line(1, 24, 0),
        line(1, 24, 1),
        line(1, end, 1),
        line(1, 25, 1),
        // What cannot be read is not the last one.
        format!("stretch {keys} 0 0 0 ab\n"),
        line(1, 26, 1),
    ];
    let table =
        String::from_utf8(reference(&["count"], stretches.concat().as_bytes()).stdout).unwrap();
    let expected = [
        "stretch             25",
        "   0 result         17",
        "     ends at 2^20          2",
        "     out of a block        2",
        "     joins in a block      2",
        "   7 LARGE           8",
        "     ends at 2^20 + 1      3",
        "     length 0              2",
        "     end past 64 bits      2",
        "state                0",
    ];
    assert!(table.contains(&expected.join("\n")), "{table}");
}

#[test]
fn refuses_other_words() {
    for arguments in [vec!["walk"], vec!["random", "1"], vec!["random", "x", "1"], vec!["run", "1"]]
    {
        assert_eq!(reference(&arguments, b"").status.code(), Some(2));
    }
}

#[test]
fn a_line_of_ten_megabytes_is_one_line() {
    let mut input = vec![0xff; 10_000_000];
    input.extend(b"\nstate 1");
    assert_eq!(reference(&[], &input).stdout, b"?\n0 0 -\n");
}
