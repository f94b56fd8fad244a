//! RFC 9335 A.1: the six AES-CTR packets and the derived keys (rfc9335.txt holds the paper's hex).

use reference::hex;
use reference::keystream::SessionKeys;
use reference::refusal::Refusal;
use reference::session::{Session, Way};
use reference::suite::Suite;

const VECTORS: &str = include_str!("rfc9335.txt");
const SSRC: u32 = 0xcafe_babe;

fn bytes(word: &str) -> Vec<u8> {
    hex::read(word.as_bytes(), 4_096).unwrap()
}

fn common(name: &str) -> Vec<u8> {
    let line = VECTORS.lines().find(|line| line.starts_with(name)).unwrap();
    bytes(line.split(' ').nth(1).unwrap())
}

/// Plain and wire packet of every section.
fn packets() -> Vec<(Vec<u8>, Vec<u8>)> {
    let lines = VECTORS.lines().filter(|line| line.starts_with("packet "));
    let words = lines.map(|line| line.split(' ').collect::<Vec<_>>());
    words.map(|words| (bytes(words[2]), bytes(words[3]))).collect()
}

fn session(policy: u64, way: Way) -> Session {
    let mut session = Session::make(
        Suite::CounterMode,
        &common("master-key"),
        &common("master-salt"),
        policy,
        &[],
    )
    .unwrap();
    session.add(SSRC, way, 0).unwrap();
    session
}

#[test]
fn derived_keys() {
    let (key, salt) = (common("master-key"), common("master-salt"));
    let keys = SessionKeys::derive(&key.try_into().unwrap(), &salt.try_into().unwrap());
    assert_eq!(keys.cipher_key.to_vec(), common("session-key"));
    assert_eq!(keys.cipher_salt.to_vec(), common("session-salt"));
    assert_eq!(keys.authentication_key.to_vec(), common("authentication-key"));
}

/// One session sends all six in the paper's order; the bytes behind the wire packet stay.
#[test]
fn protect_gives_the_wire_packets() {
    assert_eq!(packets().len(), 6);
    for policy in [1, 2] {
        let mut sender = session(policy, Way::Sending);
        for (plain, wire) in packets() {
            let mut buffer = plain.clone();
            buffer.resize(wire.len() + 3, 0x5a);
            assert_eq!(sender.protect(&mut buffer, plain.len() as u64), Ok(wire.len()));
            assert_eq!(buffer[..wire.len()], wire);
            assert_eq!(buffer[wire.len()..], [0x5a; 3]);
        }
    }
}

#[test]
fn unprotect_gives_the_plain_packets() {
    for policy in [1, 2] {
        let mut receiver = session(policy, Way::Receiving);
        for (plain, wire) in packets() {
            let mut buffer = wire.clone();
            buffer.extend([0x5a; 3]);
            assert_eq!(receiver.unprotect(&mut buffer, wire.len() as u64), Ok(plain.len()));
            assert_eq!(buffer[..plain.len()], plain);
            assert_eq!(buffer[plain.len()..wire.len()], wire[plain.len()..]);
            assert_eq!(buffer[wire.len()..], [0x5a; 3]);
        }
    }
}

/// A.1.5 without its empty block: Cryptex adds it, so the wire bytes are A.1.5's, and it stays.
#[test]
fn added_block_gives_the_wire_packet_of_a_1_5() {
    let (with_block, wire) = packets()[4].clone();
    let mut without = with_block.clone();
    without[0] &= 0xef;
    without.drain(20..24);
    for policy in [1, 2] {
        let mut buffer = without.clone();
        buffer.resize(wire.len(), 0);
        let mut sender = session(policy, Way::Sending);
        assert_eq!(sender.protect(&mut buffer, without.len() as u64), Ok(wire.len()));
        assert_eq!(buffer, wire);
        let mut receiver = session(policy, Way::Receiving);
        assert_eq!(receiver.unprotect(&mut buffer, wire.len() as u64), Ok(with_block.len()));
        assert_eq!(buffer[..with_block.len()], with_block);
    }
}

/// Document 01's run-only sum: the A.1.1 packet (36 bytes) needs 46; a buffer of 45 is ROOM.
#[test]
fn room_for_a_1_1() {
    let (plain, wire) = packets()[0].clone();
    let mut sender = session(1, Way::Sending);
    let mut buffer = plain.clone();
    buffer.resize(45, 0);
    let before = buffer.clone();
    assert_eq!(sender.protect(&mut buffer, 36), Err(Refusal::Room));
    assert_eq!(buffer, before);
    buffer.resize(46, 0);
    assert_eq!(sender.protect(&mut buffer, 36), Ok(46));
    assert_eq!(buffer, wire);
}
