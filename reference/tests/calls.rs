//! The calls of document 01: order of refusals, what a refusal leaves, finding, and demand 3's
//! ledger, with expectations taken from the paper's words.

use reference::random::craft;
use reference::random::dice::Dice;
use reference::refusal::Refusal;
use reference::script::Desk;
use reference::session::{Session, Way};
use reference::suite::Suite;
use std::collections::BTreeSet;

const KEY: [u8; 16] = [0x11; 16];
const SALT: [u8; 14] = [0x22; 14];
const SSRC: u32 = 0xcafe_babe;

fn session(suite: Suite, policy: u64, way: Way, rollover: u32) -> Session {
    let salt = &SALT[..suite.salt_length()];
    let mut session = Session::make(suite, &KEY, salt, policy, &[2, 3, 14, 255]).unwrap();
    session.add(SSRC, way, rollover).unwrap();
    session
}

fn answers(script: &[&str]) -> Vec<String> {
    let mut desk = Desk::default();
    let answers = script.iter().map(|line| desk.answer(line.as_bytes()).unwrap());
    answers.map(|answer| String::from_utf8(answer).unwrap()).collect()
}

fn answer(line: &str) -> String {
    answers(&[line]).remove(0)
}

fn made(suite: Suite, key: usize, salt: usize, policy: u64) -> Result<(), Refusal> {
    Session::make(suite, &vec![0; key], &vec![0; salt], policy, &[]).map(|_| ())
}

#[test]
fn making() {
    let made = |key, salt, policy| made(Suite::CounterMode, key, salt, policy);
    assert_eq!(made(16, 14, 3), Ok(()));
    for (key, salt) in [(15, 14), (17, 14), (16, 13), (16, 15), (16, 12), (0, 0)] {
        assert_eq!(made(key, salt, 0), Err(Refusal::Keys));
        assert_eq!(made(key, salt, 4), Err(Refusal::Keys));
    }
    assert_eq!(made(16, 14, 4), Err(Refusal::Policy));
    assert_eq!(made(16, 14, u64::MAX), Err(Refusal::Policy));
}

/// The second suite: 12 bytes of salt, policies 0 to 2, and KEYS before POLICY.
#[test]
fn making_with_gcm() {
    let made = |key, salt, policy| made(Suite::Gcm, key, salt, policy);
    for policy in 0..3 {
        assert_eq!(made(16, 12, policy), Ok(()));
    }
    for policy in [3, 4, 256, u64::MAX] {
        assert_eq!(made(16, 12, policy), Err(Refusal::Policy));
    }
    for (key, salt) in [(16, 14), (16, 13), (16, 11), (16, 0), (15, 12), (17, 12), (0, 12)] {
        for policy in [0, 2, 3, 4] {
            assert_eq!(made(key, salt, policy), Err(Refusal::Keys));
        }
    }
}

/// Its policy is 0, whatever was asked for; it takes no stream; packet calls end at STREAM.
#[test]
fn unmade_session() {
    let make = format!("make 0 {} {} 2 -", "00".repeat(16), "00".repeat(13));
    let packet = "80000000000000000000000000000000000000000000";
    let protect = format!("protect 0 12 {packet}");
    let unprotect = format!("unprotect 0 22 {packet}");
    let script = [&make, "add 0 00000000 s 0", &protect, &unprotect, "state 0"];
    let expected = ["15", "15", &format!("9 0 {packet}"), &format!("9 0 {packet}"), "0 0 -"];
    assert_eq!(answers(&script), expected);
}

#[test]
fn adding() {
    let mut session = Session::make(Suite::CounterMode, &KEY, &SALT, 0, &[]).unwrap();
    for ssrc in 0..32 {
        let way = if ssrc % 2 == 0 { Way::Sending } else { Way::Receiving };
        assert_eq!(session.add(ssrc, way, u32::MAX), Ok(()));
        assert_eq!(session.add(ssrc, Way::Sending, 0), Err(Refusal::Twice));
        assert_eq!(session.add(ssrc, Way::Receiving, 0), Err(Refusal::Twice));
    }
    assert_eq!(session.add(32, Way::Sending, 0), Err(Refusal::Full));
    assert_eq!(session.add(31, Way::Sending, 0), Err(Refusal::Twice));
}

#[test]
fn finding() {
    let header = "90000000000000000000000000000000".to_string();
    let one = |block: &str| {
        header[..24].to_string() + "bede" + &format!("{:04x}", block.len() / 8) + block
    };
    let two = |block: &str| {
        header[..24].to_string() + "100f" + &format!("{:04x}", block.len() / 8) + block
    };
    // The first of two, padding before it, its place counted in the packet.
    assert_eq!(answer(&format!("find 2 {}", one("0021abcd20ee0000"))), "0 18 abcd");
    assert_eq!(answer(&format!("find 3 {}", one("0021abcd20ee0000"))), "19 0 -");
    // A broken element behind the asked one, and the two early ends.
    assert_eq!(answer(&format!("find 2 {}", one("0021abcd0000003f"))), "6 0 -");
    assert_eq!(answer(&format!("find 3 {}", one("f030ee00"))), "19 0 -");
    assert_eq!(answer(&format!("find 3 {}", one("0130ee00"))), "19 0 -");
    assert_eq!(answer(&format!("find 15 {}", one("f0aa0000"))), "19 0 -");
    // Two-byte: empty is not absent; a length byte past the end.
    assert_eq!(answer(&format!("find 255 {}", two("00ff0000"))), "0 0 -");
    assert_eq!(answer(&format!("find 15 {}", two("0f02abcd"))), "0 18 abcd");
    assert_eq!(answer(&format!("find 1 {}", two("00000001"))), "6 0 -");
    assert_eq!(answer(&format!("find 0 {}", two("00000000"))), "19 0 -");
    // Other tags have no elements; X = 0; short; version; header.
    let other = one("21abcd00").replace("bede", "c0de");
    assert_eq!(answer(&format!("find 2 {other}")), "19 0 -");
    assert_eq!(answer("find 1 800000000000000000000000"), "19 0 -");
    assert_eq!(answer("find 1 4000000000000000000000"), "2 0 -");
    assert_eq!(answer("find 1 410000000000000000000000"), "3 0 -");
    assert_eq!(answer("find 1 810000000000000000000000"), "4 0 -");
    assert_eq!(answer("find 1 -"), "2 0 -");
}

/// Each check comes before those with a higher number: a packet with everything wrong loses its
/// faults one by one.
#[test]
fn order_of_refusals_on_protect() {
    let mut sender = Session::make(Suite::CounterMode, &KEY, &SALT, 1, &[]).unwrap();
    let mut buffer = vec![0; 3_000];
    buffer[0] = 0x1f;
    assert_eq!(sender.protect(&mut buffer, u64::MAX), Err(Refusal::Length));
    assert_eq!(sender.protect(&mut buffer, 11), Err(Refusal::Short));
    assert_eq!(sender.protect(&mut buffer, 12), Err(Refusal::Version));
    buffer[0] = 0x9f;
    assert_eq!(sender.protect(&mut buffer, 71), Err(Refusal::Header));
    buffer[74..76].copy_from_slice(&1u16.to_be_bytes());
    assert_eq!(sender.protect(&mut buffer, 75), Err(Refusal::Header));
    assert_eq!(sender.protect(&mut buffer, 79), Err(Refusal::Header));
    assert_eq!(sender.protect(&mut buffer, 3_000), Err(Refusal::Profile));
    buffer[72..74].copy_from_slice(&[0x10, 0x00]);
    assert_eq!(sender.protect(&mut buffer, 3_000), Err(Refusal::Large));
    assert_eq!(sender.protect(&mut buffer[..2_047], 2_038), Err(Refusal::Room));
    assert_eq!(sender.protect(&mut buffer[..2_048], 2_038), Err(Refusal::Stream));
    sender.add(0, Way::Sending, u32::MAX).unwrap();
    assert_eq!(sender.protect(&mut buffer[..2_048].to_vec(), 2_038), Ok(2_048));
    assert_eq!(sender.protect(&mut buffer, 2_038), Err(Refusal::Order));
}

/// What demand 2 gives back for a plain packet.
fn restored(draft: &craft::Draft, policy: u64) -> Vec<u8> {
    let mut draft = draft.clone();
    if draft.takes_added_block(policy) {
        draft.set_block(0xbede, Vec::new());
    }
    draft.bytes()
}

/// Every policy of both suites, with the tag's length.
const ALL: [(Suite, u64, usize); 7] = [
    (Suite::CounterMode, 0, 10),
    (Suite::CounterMode, 1, 10),
    (Suite::CounterMode, 2, 10),
    (Suite::CounterMode, 3, 10),
    (Suite::Gcm, 0, 16),
    (Suite::Gcm, 1, 16),
    (Suite::Gcm, 2, 16),
];

/// Random packets, sent in order, come back; no byte behind them changes.
#[test]
fn round_trips() {
    let mut dice = Dice::new(5);
    for (suite, policy, t) in ALL {
        let (mut sender, mut receiver) =
            (session(suite, policy, Way::Sending, 1), session(suite, policy, Way::Receiving, 1));
        for sequence in 60_000..60_200 {
            let draft = craft::good(&mut dice, SSRC, sequence, policy);
            let (plain, back) = (draft.bytes(), restored(&draft, policy));
            let m = back.len() + t;
            let mut buffer = plain.clone();
            buffer.resize(m + 5, 0xa5);
            assert_eq!(sender.protect(&mut buffer, plain.len() as u64), Ok(m));
            assert_eq!(buffer[m..], [0xa5; 5]);
            let wire = buffer.clone();
            assert_eq!(receiver.unprotect(&mut buffer, m as u64), Ok(m - t));
            assert_eq!(buffer[..m - t], back);
            assert_eq!(buffer[m - t..], wire[m - t..]);
        }
    }
}

/// 15 bytes, and room for a tag of `t`.
fn packet(sequence: u16, t: usize) -> Vec<u8> {
    let mut bytes = vec![0x80, 0];
    bytes.extend(sequence.to_be_bytes());
    bytes.extend([0; 4]);
    bytes.extend(SSRC.to_be_bytes());
    bytes.extend([0x77; 3]);
    bytes.resize(15 + t, 0);
    bytes
}

/// The ledger of demand 3, written out again here: arrivals in random order, with repeats and
/// loss, across several rollovers.
#[test]
fn arrivals_are_judged_as_the_ledger_says() {
    let mut dice = Dice::new(6);
    let [counter_mode, .., gcm] = ALL;
    for ((suite, policy, t), rollover) in [
        (counter_mode, 0),
        (counter_mode, 1),
        (counter_mode, u32::MAX - 1),
        (gcm, 0),
        (gcm, 1 << 31),
    ] {
        let mut sender = session(suite, policy, Way::Sending, rollover);
        let mut receiver = session(suite, policy, Way::Receiving, rollover);
        let mut sent: Vec<(i128, Vec<u8>)> = Vec::new();
        let mut sequence: u16 = 65_000;
        let mut index = i128::from(rollover) * 65_536 + 65_000;
        for _ in 0..1_500 {
            let mut wire = packet(sequence, t);
            sender.protect(&mut wire, 15).unwrap();
            sent.push((index, wire));
            let step = if dice.one_in(50) { dice.between(1, 500) } else { 1 };
            sequence = sequence.wrapping_add(step as u16);
            index += i128::from(step);
        }
        let mut held: BTreeSet<i128> = BTreeSet::new();
        let mut place = 0;
        while place < sent.len() {
            let (index, wire) = &sent[place.saturating_sub(dice.size(0, 80))];
            let expected = match held.iter().max() {
                Some(highest) if highest - index >= 64 => Err(Refusal::Old),
                _ if held.contains(index) => Err(Refusal::Repeat),
                _ => Ok(15),
            };
            assert_eq!(receiver.unprotect(&mut wire.clone(), 15 + t as u64), expected);
            if expected.is_ok() {
                held.insert(*index);
            }
            place += dice.size(0, 3);
        }
    }
}

/// Damage to any one bit before the tag's end is refused, and then the packet is still taken.
#[test]
fn damage_leaves_everything_as_it_was() {
    for (suite, policy, t) in ALL {
        let mut sender = session(suite, policy, Way::Sending, 0);
        let mut receiver = session(suite, policy, Way::Receiving, 0);
        let mut wire = packet(9, t);
        let n = wire.len() as u64;
        sender.protect(&mut wire, 15).unwrap();
        for bit in 0..8 * wire.len() {
            let mut copy = wire.clone();
            copy[bit / 8] ^= 1 << (bit % 8);
            let before = copy.clone();
            assert!(receiver.unprotect(&mut copy, n).is_err(), "bit {bit}");
            assert_eq!(copy, before);
        }
        assert_eq!(receiver.unprotect(&mut wire, n), Ok(15));
    }
}
