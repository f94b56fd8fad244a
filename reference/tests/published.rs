//! Published vectors of vectors.txt: FIPS 197, SP 800-38A, FIPS 180, RFC 2202, RFC 3711 B.2 and
//! B.3, RFC 6904 A.1, and two whole packets of libsrtp.

use reference::aes::{s_box, Aes};
use reference::hmac::hmac_sha1;
use reference::keystream::{aes_cm, derive};
use reference::session::{Session, Way};
use reference::suite::Suite;
use reference::{hex, sha1};

const VECTORS: &str = include_str!("vectors.txt");

/// The words after the first one, of every line that starts with this word.
fn lines_of(kind: &str) -> Vec<Vec<&'static str>> {
    let lines = VECTORS.lines().map(|line| line.split(' ').collect::<Vec<_>>());
    let lines = lines.filter(|words| words[0] == kind).map(|words| words[1..].to_vec());
    let lines: Vec<Vec<&str>> = lines.collect();
    assert!(!lines.is_empty(), "no vector of kind {kind}");
    lines
}

fn bytes(word: &str) -> Vec<u8> {
    hex::read(word.as_bytes(), 4_096).unwrap()
}

fn array<const N: usize>(word: &str) -> [u8; N] {
    bytes(word).try_into().unwrap()
}

fn check_aes(key: &str, block: &str, cipher_text: &str) {
    let result = Aes::new(&array(key)).encrypt(&array(block));
    assert_eq!(result.to_vec(), bytes(cipher_text));
}

#[test]
fn aes_of_fips_197_and_sp_800_38a() {
    for words in lines_of("aes") {
        check_aes(words[1], words[2], words[3]);
    }
    for words in lines_of("ecb") {
        check_aes("2b7e151628aed2a6abf7158809cf4f3c", words[0], words[1]);
    }
}

/// FIPS 197 section 5.1.1: {53} goes to {ed}; figure 7's corners.
#[test]
fn s_box_of_fips_197() {
    for (a, b) in [(0x53, 0xed), (0x00, 0x63), (0x0f, 0x76), (0xf0, 0x8c), (0xff, 0x16)] {
        assert_eq!(s_box(a), b);
    }
}

#[test]
fn sha1_of_fips_180() {
    for words in lines_of("sha1") {
        let message = match words[0] {
            "one" => "a".repeat(1_000_000),
            quoted => quoted.trim_matches('"').to_string(),
        };
        let digest = words.last().unwrap();
        assert_eq!(hex::write(&sha1::digest(message.as_bytes())), *digest);
    }
}

#[test]
fn hmac_of_rfc_2202() {
    assert_eq!(lines_of("hmac").len(), 7);
    for words in lines_of("hmac") {
        assert_eq!(hex::write(&hmac_sha1(&bytes(words[0]), &bytes(words[1]))), words[2]);
    }
}

/// SSRC 0 and index 0, so the counter starts at the salt times 2^16.
#[test]
fn keystream_of_rfc_3711_b2() {
    let common = &lines_of("cm")[0];
    let salt = format!("{}0000", common[1]);
    let start = u128::from_be_bytes(array(&salt));
    let stream = aes_cm(&array(common[0]), start, 65_282 * 16);
    for words in lines_of("cm-block") {
        let block: usize = words[0].parse().unwrap();
        assert_eq!(hex::write(&stream[16 * block..16 * block + 16]), words[1]);
    }
}

#[test]
fn derivation_of_rfc_3711_b3_and_rfc_6904_a1() {
    let common = &lines_of("kdf")[0];
    let (key, salt) = (array(common[0]), array(common[1]));
    for words in lines_of("kdf-label") {
        let label = words[0].parse().unwrap();
        let longest: [u8; 94] = derive(&key, &salt, label);
        let expected = bytes(words[1]);
        assert_eq!(longest[..expected.len()], expected);
    }
}

/// Both ways, through the calls.
#[test]
fn packets_of_libsrtp() {
    let common = &lines_of("kdf")[0];
    let (key, salt) = (bytes(common[0]), bytes(common[1]));
    for words in lines_of("srtp") {
        let (policy, ids): (u64, &[u8]) = match words[0] {
            "policy-0" => (0, &[]),
            "policy-3-ids-1-3-4" => (3, &[1, 3, 4]),
            other => panic!("unknown packet {other}"),
        };
        let (plain, wire) = (bytes(words[1]), bytes(words[2]));
        let mut sender = Session::make(Suite::CounterMode, &key, &salt, policy, ids).unwrap();
        sender.add(0xcafe_babe, Way::Sending, 0).unwrap();
        let mut buffer = plain.clone();
        buffer.resize(wire.len(), 0);
        assert_eq!(sender.protect(&mut buffer, plain.len() as u64), Ok(wire.len()));
        assert_eq!(buffer, wire);
        let mut receiver = Session::make(Suite::CounterMode, &key, &salt, policy, ids).unwrap();
        receiver.add(0xcafe_babe, Way::Receiving, 0).unwrap();
        assert_eq!(receiver.unprotect(&mut buffer, wire.len() as u64), Ok(plain.len()));
        assert_eq!(buffer[..plain.len()], plain);
        assert_eq!(buffer[plain.len()..], wire[plain.len()..]);
    }
}
