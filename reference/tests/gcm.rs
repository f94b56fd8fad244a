//! The second suite, after change request 3: published values of GCM, of the key derivation, of RFC
//! 7714 and of whole packets, through the call script where it can be. Where nothing is published,
//! IV and associated data are laid out by hand and GCM alone does the rest.

use reference::gcm::Gcm;
use reference::hex;
use reference::keystream::derive;
use reference::script::Desk;
use reference::suite::GcmKeys;

const VECTORS: &str = include_str!("vectors.txt");
const RFC_9335: &str = include_str!("rfc9335.txt");

/// The words after the first one, of every line that starts with this word.
fn lines_of(text: &'static str, kind: &str) -> Vec<Vec<&'static str>> {
    let lines = text.lines().map(|line| line.split(' ').collect::<Vec<_>>());
    lines.filter(|words| words[0] == kind).map(|words| words[1..].to_vec()).collect()
}

fn bytes(word: &str) -> Vec<u8> {
    hex::read(word.as_bytes(), 4_096).unwrap()
}

fn array<const N: usize>(word: &str) -> [u8; N] {
    bytes(word).try_into().unwrap()
}

fn answer(desk: &mut Desk, line: &str) -> String {
    String::from_utf8(desk.answer(line.as_bytes()).unwrap()).unwrap()
}

/// RFC 9335 A.2's word of this name.
fn a2(name: &str) -> &'static str {
    lines_of(RFC_9335, name)[0][0]
}

/// A desk whose session 0 sends and session 1 receives RFC 9335's stream.
fn desk(policy: u64) -> Desk {
    let mut desk = Desk::default();
    let keys = format!("{} {}", a2("gcm-master-key"), a2("gcm-master-salt"));
    for (session, way) in [(0, "s"), (1, "r")] {
        assert_eq!(answer(&mut desk, &format!("make {session} {keys} {policy} - gcm")), "0");
        assert_eq!(answer(&mut desk, &format!("add {session} cafebabe {way} 0")), "0");
    }
    desk
}

fn protect(desk: &mut Desk, plain: &str, room: usize) -> String {
    let room = "5a".repeat(room);
    answer(desk, &format!("protect 0 {} {plain}{room}", plain.len() / 2))
}

fn unprotect(desk: &mut Desk, wire: &str) -> String {
    answer(desk, &format!("unprotect 1 {} {wire}", wire.len() / 2))
}

/// Result, length, and the buffer: what is given back, and the 16 bytes of the tag as they were.
fn given_back(plain: &str, wire: &str) -> String {
    format!("0 {} {plain}{}", plain.len() / 2, &wire[wire.len() - 32..])
}

#[test]
fn cases_1_to_4_of_the_submission() {
    assert_eq!(lines_of(VECTORS, "gcm").len(), 4);
    for words in lines_of(VECTORS, "gcm") {
        let (gcm, iv) = (Gcm::new(&array(words[0])), array(words[1]));
        let [data, plain, cipher_text, tag] = [2, 3, 4, 5].map(|place| bytes(words[place]));
        let (result, result_tag) = gcm.encrypt(&iv, &data, &plain);
        assert_eq!((result, result_tag.to_vec()), (cipher_text.clone(), tag.clone()));
        assert_eq!(gcm.decrypt(&iv, &data, &cipher_text, &tag), Some(plain));
        // Any other tag, a shorter one too, is wrong.
        for bit in 0..128 {
            let mut other = tag.clone();
            other[bit / 8] ^= 1 << (bit % 8);
            assert_eq!(gcm.decrypt(&iv, &data, &cipher_text, &other), None);
        }
        assert_eq!(gcm.decrypt(&iv, &data, &cipher_text, &tag[..12]), None);
    }
}

/// RFC 7714 section 16.1.1: session key and salt, IV, and a packet.
#[test]
fn packet_of_rfc_7714() {
    let key = array("000102030405060708090a0b0c0d0e0f");
    let keys = GcmKeys { key, salt: array("517569642070726f2071756f") };
    let iv = keys.iv(0x5501_a0b2, 0xf17b);
    assert_eq!(hex::write(&iv), "51753c6580c2726f20718414");
    let data = bytes("8040f17b8041f8d35501a0b2");
    let (cipher_text, tag) =
        Gcm::new(&key).encrypt(&iv, &data, b"Gallia est omnis divisa in partes tres");
    let expected = "f24de3a3fb34de6cacba861c9d7e4bcabe633bd50d294e6f42a5f47a51c7d19b36de3adf8833";
    assert_eq!(hex::write(&cipher_text), expected);
    assert_eq!(hex::write(&tag), "899d7f27beb16a9152cf765ee4390cce");
}

/// The rollover stands before the sequence number, behind the SSRC.
#[test]
fn index_in_the_iv() {
    let keys = GcmKeys { key: [0; 16], salt: [0; 12] };
    assert_eq!(hex::write(&keys.iv(0x8102_0304, 0x9112_1314_1516)), "000081020304911213141516");
    let keys = GcmKeys { salt: [0xff; 12], ..keys };
    assert_eq!(hex::write(&keys.iv(0x8102_0304, 0x9112_1314_1516)), "ffff7efdfcfb6eedecebeae9");
}

#[test]
fn derivation_of_rfc_9335_a2() {
    let common = &lines_of(VECTORS, "kdf-gcm")[0];
    assert_eq!(common[..], [a2("gcm-master-key"), a2("gcm-master-salt")]);
    let keys = GcmKeys::derive(&array(common[0]), &array(common[1]));
    let labels = lines_of(VECTORS, "kdf-gcm-label");
    assert_eq!(labels, [["0", a2("gcm-session-key")], ["2", a2("gcm-session-salt")]]);
    assert_eq!(hex::write(&keys.key), labels[0][1]);
    assert_eq!(hex::write(&keys.salt), labels[1][1]);
    // The same through RFC 3711's function, over the salt and two zero bytes.
    let salt = array(&format!("{}0000", common[1]));
    assert_eq!(derive(&array(common[0]), &salt, 0), keys.key);
    assert_eq!(derive(&array(common[0]), &salt, 2), keys.salt);
}

/// RFC 9335 A.2.1 to A.2.6, both ways, under both policies of Cryptex; the bytes behind the wire
/// packet stay.
#[test]
fn packets_of_rfc_9335_a2() {
    let packets = lines_of(RFC_9335, "gcm-packet");
    let names: Vec<&str> = packets.iter().map(|words| words[0]).collect();
    assert_eq!(names, ["A.2.1", "A.2.2", "A.2.3", "A.2.4", "A.2.5", "A.2.6"]);
    for policy in [1, 2] {
        let desk = &mut desk(policy);
        for words in &packets {
            let (plain, wire) = (words[1], words[2]);
            let m = wire.len() / 2;
            assert_eq!(protect(desk, plain, 19), format!("0 {m} {wire}5a5a5a"));
            assert_eq!(unprotect(desk, wire), given_back(plain, wire));
        }
        assert_eq!(answer(desk, "state 0"), format!("1 {policy} cafebabe:s:4667:-"));
        assert_eq!(answer(desk, "state 1"), format!("1 {policy} cafebabe:r:4667:0,1,2,3,5,6"));
    }
}

/// A.2.5 without its empty block: Cryptex adds it, so the wire bytes are A.2.5's, and it stays.
#[test]
fn added_block_gives_the_wire_packet_of_a_2_5() {
    let (plain, wire) =
        (lines_of(RFC_9335, "gcm-packet")[4][1], lines_of(RFC_9335, "gcm-packet")[4][2]);
    let without = plain.replacen("92", "82", 1).replacen("bede0000", "", 1);
    for policy in [1, 2] {
        let desk = &mut desk(policy);
        // It takes 4 bytes and 16.
        assert!(protect(desk, &without, 19).starts_with("8 0 "));
        assert_eq!(protect(desk, &without, 20), format!("0 56 {wire}"));
        assert_eq!(unprotect(desk, wire), given_back(plain, wire));
    }
}

#[test]
fn packet_of_libsrtp() {
    let words = &lines_of(VECTORS, "srtp-gcm")[0];
    assert_eq!(words[0], "policy-0");
    for policy in 0..3 {
        let desk = &mut desk(policy);
        assert_eq!(protect(desk, words[1], 16), format!("0 44 {}", words[2]));
        assert_eq!(unprotect(desk, words[2]), given_back(words[1], words[2]));
    }
}

/// Every bit of A.2.4's wire packet, which has all parts: some smaller number or TAG, buffer and
/// session as they were. Then the packet is still taken.
#[test]
fn every_bit_of_a_2_4_is_authenticated() {
    let (plain, wire) =
        (lines_of(RFC_9335, "gcm-packet")[3][1], lines_of(RFC_9335, "gcm-packet")[3][2]);
    for policy in [1, 2] {
        let desk = &mut desk(policy);
        for bit in 0..4 * wire.len() {
            let mut copy = bytes(wire);
            copy[bit / 8] ^= 1 << (bit % 8);
            let copy = hex::write(&copy);
            let answered = unprotect(desk, &copy);
            let (number, rest) = answered.split_once(' ').unwrap();
            assert_eq!(rest, format!("0 {copy}"));
            // Version, CC and X, the SSRC, the extension's tag and count can give a smaller number.
            let place = bit / 8;
            if ![0, 8, 9, 10, 11, 20, 21, 22, 23].contains(&place) {
                assert_eq!(number, "14", "bit {bit}");
            }
            assert_ne!(number, "0", "bit {bit}");
        }
        assert_eq!(answer(desk, "state 1"), format!("1 {policy} cafebabe:r:-:-"));
        assert_eq!(unprotect(desk, wire), given_back(plain, wire));
    }
}

/// The wire bytes of a packet whose first `clear` bytes are all that is not encrypted, under A.2's
/// published session key and salt.
fn plain_wire(packet: &str, clear: usize) -> String {
    let packet = bytes(packet);
    let mut iv: [u8; 12] = array(a2("gcm-session-salt"));
    // SSRC at bytes 2 to 5; the rollover is 0; the sequence number at bytes 10 and 11.
    for (place, from) in [(2, 8), (3, 9), (4, 10), (5, 11), (10, 2), (11, 3)] {
        iv[place] ^= packet[from];
    }
    let gcm = Gcm::new(&array(a2("gcm-session-key")));
    let (cipher_text, tag) = gcm.encrypt(&iv, &packet[..clear], &packet[clear..]);
    hex::write(&[&packet[..clear], &cipher_text, &tag].concat())
}

/// In plain packets all of the header is associated data, contributors and extension too: A.2's plain
/// packets under policy 0. Under policy 1 they are taken as they are, and under policy 2 refused.
#[test]
fn plain_packets_authenticate_the_whole_header() {
    for (words, clear) in lines_of(RFC_9335, "gcm-packet").iter().zip([20, 20, 28, 28, 24, 24]) {
        let plain = words[1];
        let wire = plain_wire(plain, clear);
        let desk_0 = &mut desk(0);
        assert_eq!(protect(desk_0, plain, 16), format!("0 {} {wire}", wire.len() / 2));
        assert_eq!(unprotect(desk_0, &wire), given_back(plain, &wire));
        assert_eq!(unprotect(&mut desk(1), &wire), given_back(plain, &wire));
        assert_eq!(unprotect(&mut desk(2), &wire), format!("5 0 {wire}"));
        for place in 12..clear {
            let mut copy = bytes(&wire);
            copy[place] ^= 1;
            let copy = hex::write(&copy);
            let answered = unprotect(&mut desk(0), &copy);
            assert!(answered == format!("14 0 {copy}") || answered == format!("4 0 {copy}"));
        }
    }
}

/// GCM's counter blocks are the IV and a number from 2 on, so those of counter mode from block 2 on
/// with the IV and two zero bytes for salt: what the line `stretch` makes of these bytes of a packet
/// with this sequence number, under A.2's published session key and salt.
fn by_stretch(sequence: u16, plain: &[u8]) -> Vec<u8> {
    let (key, salt) = (a2("gcm-session-key"), a2("gcm-session-salt"));
    let keys = GcmKeys { key: array(key), salt: array(salt) };
    let iv = hex::write(&keys.iv(0xcafe_babe, u128::from(sequence)));
    let line = format!("stretch {key} {iv}0000 00000000 0 32 {}", hex::write(plain));
    let answered = answer(&mut Desk::default(), &line);
    bytes(answered.strip_prefix("0 ").unwrap())
}

#[test]
fn encrypted_bytes_of_rfc_9335_a2_by_stretch() {
    for words in lines_of(RFC_9335, "gcm-packet") {
        let (plain, wire) = (bytes(words[1]), bytes(words[2]));
        let contributors = 4 * usize::from(plain[0] & 15);
        let encrypted = |packet: &[u8]| {
            [&packet[12..12 + contributors], &packet[16 + contributors..plain.len()]].concat()
        };
        let sequence = u16::from_be_bytes([plain[2], plain[3]]);
        assert_eq!(by_stretch(sequence, &encrypted(&plain)), encrypted(&wire));
    }
}

/// The longest payload, 127 blocks.
#[test]
fn encrypted_bytes_of_a_long_packet_by_stretch() {
    let plain = format!("800f0007decafbadcafebabe{}", "ab".repeat(2_020));
    let answered = protect(&mut desk(0), &plain, 16);
    let wire = bytes(answered.strip_prefix("0 2048 ").unwrap());
    assert_eq!(wire[12..2_032], by_stretch(7, &[0xab; 2_020]));
}
