//! Cryptex required: PROFILE on unprotect under policy 2, as change request 2 has it. The packet is
//! that of RFC 9335 A.1.5. Its wire bytes in clear were worked out beside this program: the RFC's
//! plain and wire packet give the keystream, its authentication key the tag.

use reference::hex;
use reference::script::Desk;
use reference::session::{Session, Way};
use reference::suite::Suite;

const KEYS: &str = "e1f97a0d3e018be0d64fa32c06de4139 0ec675ad498afeebb6960b3aabe6";
const SSRC: u32 = 0xcafe_babe;

/// A.1.5 without its empty block, X = 0 and CC = 2, and the same under policy 0.
const PLAIN: &str = "820f123adecafbadcafebabe0001e2400000b26eabababababababababababababababab";
const IN_CLEAR: &str = "820f123adecafbadcafebabe0001e2400000b26e\
    da9aff405581a926e3d9f64b25c9e74caed0dd3d9c17cbe189f5";
/// The same without contributors: X = 0 and CC = 0.
const BARE: &str = "800f123adecafbadcafebabeabababababababababababababababab";
const BARE_WIRE: &str =
    "800f123adecafbadcafebabeda9aff405581a926e3d9f64b25c9e74c29365631a1a5a704453a";
/// A.1.5 and A.1.6 as they are given back and on the wire.
const BACK_5: &str =
    "920f123adecafbadcafebabe0001e2400000b26ebede0000abababababababababababababababab";
const WIRE_5: &str = "920f123adecafbadcafebabe7130b6abfe2ab0e3c0de0000\
    e3d9f64b25c9e74cb4cf8e43fb92e3781c2c0ceab6b3a499a14c";
const BACK_6: &str =
    "920f123bdecafbadcafebabe0001e2400000b26e10000000abababababababababababababababab";
const WIRE_6: &str = "920f123bdecafbadcafebabecbf24c124330e1c8c2de0000\
    599dd45bc9d687b603e8b59d771fd38e88b170e0cd31e125eabe";

/// A desk whose session 0 receives the stream under this policy.
fn receiver(policy: u64) -> Desk {
    let mut desk = Desk::default();
    assert_eq!(answer(&mut desk, &format!("make 0 {KEYS} {policy} -")), "0");
    assert_eq!(answer(&mut desk, "add 0 cafebabe r 0"), "0");
    desk
}

fn answer(desk: &mut Desk, line: &str) -> String {
    String::from_utf8(desk.answer(line.as_bytes()).unwrap()).unwrap()
}

fn unprotect(desk: &mut Desk, wire: &str) -> String {
    answer(desk, &format!("unprotect 0 {} {wire}", wire.len() / 2))
}

/// Result, length, and the buffer: what is given back, and the tag as it was.
fn given_back(plain: &str, wire: &str) -> String {
    format!("0 {} {plain}{}", plain.len() / 2, &wire[wire.len() - 20..])
}

/// The number for a packet told this long; a refusal has to leave buffer and session alone.
fn refusal(desk: &mut Desk, n: usize, wire: &str) -> u64 {
    let before = answer(desk, "state 0");
    let answered = answer(desk, &format!("unprotect 0 {n} {wire}"));
    let (number, rest) = answered.split_once(' ').unwrap();
    assert_eq!(rest, format!("0 {wire}"));
    assert_eq!(answer(desk, "state 0"), before);
    number.parse().unwrap()
}

#[test]
fn policy_2_alone_refuses_contributors_in_clear() {
    assert_eq!(unprotect(&mut receiver(2), IN_CLEAR), format!("5 0 {IN_CLEAR}"));
    for policy in [0, 1, 3] {
        assert_eq!(unprotect(&mut receiver(policy), IN_CLEAR), given_back(PLAIN, IN_CLEAR));
    }
}

#[test]
fn every_policy_takes_a_packet_with_nothing_to_hide() {
    for policy in 0..4 {
        assert_eq!(unprotect(&mut receiver(policy), BARE_WIRE), given_back(BARE, BARE_WIRE));
    }
}

/// A packet of a plain sender, who leaves everything before the payload as it is: the plain bytes
/// and the wire bytes.
fn sent_in_clear(first_byte: u8, sequence: u16) -> (String, String) {
    let (key, salt) = KEYS.split_once(' ').unwrap();
    let bytes = |word: &str| hex::read(word.as_bytes(), 16).unwrap();
    let mut sender = Session::make(Suite::CounterMode, &bytes(key), &bytes(salt), 0, &[]).unwrap();
    sender.add(SSRC, Way::Sending, 0).unwrap();
    let mut buffer = vec![0; 100];
    buffer[0] = first_byte;
    buffer[2..4].copy_from_slice(&sequence.to_be_bytes());
    buffer[8..12].copy_from_slice(&SSRC.to_be_bytes());
    let plain = hex::write(&buffer[..90]);
    sender.protect(&mut buffer, 90).unwrap();
    (plain, hex::write(&buffer))
}

/// With X = 0 every CC but 0 is refused. The extension here has tag 0000 and is refused by its tag,
/// with contributors and without.
#[test]
fn policy_2_looks_at_x_and_cc() {
    for first_byte in 0x80..=0x9f {
        let (plain, wire) = sent_in_clear(first_byte, 7);
        for policy in [0, 1, 3] {
            assert_eq!(unprotect(&mut receiver(policy), &wire), given_back(&plain, &wire));
        }
        let expected =
            if first_byte == 0x80 { given_back(&plain, &wire) } else { format!("5 0 {wire}") };
        assert_eq!(unprotect(&mut receiver(2), &wire), expected);
    }
}

/// The contributors end at 20, the tag starts at n - 10.
#[test]
fn smaller_numbers_come_before_it() {
    let desk = &mut receiver(2);
    for (n, expected) in [(47, 1), (21, 2), (22, 4), (29, 4), (30, 5), (46, 5)] {
        assert_eq!(refusal(desk, n, IN_CLEAR), expected, "told {n}");
    }
    assert_eq!(refusal(desk, 46, &IN_CLEAR.replacen("82", "42", 1)), 3);
    // Six contributors end at 36, where the tag starts; seven pass it.
    for (first_byte, expected) in [("86", 5), ("87", 4), ("8f", 4)] {
        assert_eq!(refusal(desk, 46, &IN_CLEAR.replacen("82", first_byte, 1)), expected);
    }
}

/// Policy 1 shows what else is wrong with each packet.
#[test]
fn it_comes_before_greater_numbers() {
    let large = format!("{IN_CLEAR}{}", "00".repeat(2_049 - 46));
    let other_stream = IN_CLEAR.replacen("cafebabe", "cafebabf", 1);
    let wrong_tag = IN_CLEAR.replacen("89f5", "89f4", 1);
    for (wire, otherwise) in [(large, 7), (other_stream, 9), (wrong_tag, 14)] {
        let n = wire.len() / 2;
        assert_eq!(refusal(&mut receiver(1), n, &wire), otherwise);
        assert_eq!(refusal(&mut receiver(2), n, &wire), 5);
    }
    // The packet in clear is 63 behind and taken already, or 64 behind.
    for (highest, otherwise) in [(0x123a + 63, 13), (0x123a + 64, 12)] {
        let (plain, ahead) = sent_in_clear(0x80, highest);
        for (policy, expected) in [(1, otherwise), (2, 5)] {
            let desk = &mut receiver(policy);
            assert_eq!(unprotect(desk, WIRE_5), given_back(BACK_5, WIRE_5));
            assert_eq!(unprotect(desk, &ahead), given_back(&plain, &ahead));
            assert_eq!(refusal(desk, 46, IN_CLEAR), expected);
        }
    }
}

/// An honest sender's packet of the same index is still taken, and the stream goes on. What it hands
/// to protect has X = 0; it is given back with the empty block.
#[test]
fn a_stream_goes_on_after_it() {
    let desk = &mut receiver(2);
    answer(desk, &format!("make 1 {KEYS} 2 -"));
    answer(desk, "add 1 cafebabe s 0");
    let spare = "00".repeat(14);
    assert_eq!(answer(desk, &format!("protect 1 36 {PLAIN}{spare}")), format!("0 50 {WIRE_5}"));
    assert_eq!(refusal(desk, 46, IN_CLEAR), 5);
    assert_eq!(answer(desk, "state 0"), "1 2 cafebabe:r:-:-");
    assert_eq!(unprotect(desk, WIRE_5), given_back(BACK_5, WIRE_5));
    assert_eq!(refusal(desk, 46, IN_CLEAR), 5);
    assert_eq!(answer(desk, "state 0"), "1 2 cafebabe:r:4666:0");
    assert_eq!(unprotect(desk, WIRE_6), given_back(BACK_6, WIRE_6));
    assert_eq!(answer(desk, "state 0"), "1 2 cafebabe:r:4667:0,1");
}
