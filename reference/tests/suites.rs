//! Both suites beside each other, after change request 3: every limit that has the tag's length in
//! it, the unmade session, packets of the other suite, and what can be read as a making.

use reference::refusal::Refusal;
use reference::script::Desk;
use reference::session::{Session, Way};
use reference::suite::Suite;

const KEY: [u8; 16] = [0x42; 16];
/// Its last two bytes are zero, so both suites derive the same session key from it.
const SALT: [u8; 14] = [1, 2, 3, 4, 5, 6, 7, 8, 9, 10, 11, 12, 0, 0];
const SSRC: u32 = 0x0102_0304;
const SUITES: [(Suite, usize); 2] = [(Suite::CounterMode, 10), (Suite::Gcm, 16)];

fn session(suite: Suite, policy: u64, way: Way) -> Session {
    let salt = &SALT[..suite.salt_length()];
    let mut session = Session::make(suite, &KEY, salt, policy, &[]).unwrap();
    session.add(SSRC, way, 0).unwrap();
    session
}

/// A packet of zeros with this first byte, in a buffer of this size.
fn buffer(first_byte: u8, size: usize) -> Vec<u8> {
    let mut buffer = vec![0; size];
    buffer[0] = first_byte;
    buffer[8..12].copy_from_slice(&SSRC.to_be_bytes());
    buffer
}

fn protect(suite: Suite, policy: u64, first: u8, n: usize, size: usize) -> Result<usize, Refusal> {
    session(suite, policy, Way::Sending).protect(&mut buffer(first, size), n as u64)
}

#[test]
fn the_shortest_packet() {
    for (suite, t) in SUITES {
        for policy in 0..3 {
            let mut wire = buffer(0x80, 60);
            let mut sender = session(suite, policy, Way::Sending);
            assert_eq!(sender.protect(&mut wire, 12), Ok(12 + t));
            let mut receiver = session(suite, policy, Way::Receiving);
            for n in [0, 11, 12, 11 + t] {
                assert_eq!(receiver.unprotect(&mut wire, n as u64), Err(Refusal::Short));
            }
            // One byte more is not SHORT, and its last 16 or 10 bytes are not the tag.
            assert_eq!(receiver.unprotect(&mut wire, 13 + t as u64), Err(Refusal::Tag));
            assert_eq!(receiver.unprotect(&mut wire, 12 + t as u64), Ok(12));
        }
    }
}

/// Two contributors end at 20, an extension header at 24 and its block of one word at 28.
#[test]
fn a_header_ends_at_the_tag() {
    for (suite, t) in SUITES {
        for (first, end) in [(0x82, 20), (0x92, 28)] {
            let mut wire = buffer(first, 60);
            if end == 28 {
                wire[20..24].copy_from_slice(&[0xbe, 0xde, 0, 1]);
            }
            let mut sender = session(suite, 0, Way::Sending);
            assert_eq!(sender.protect(&mut wire, end as u64), Ok(end + t));
            let mut receiver = session(suite, 0, Way::Receiving);
            for n in 12 + t..end + t {
                assert_eq!(receiver.unprotect(&mut wire, n as u64), Err(Refusal::Header));
            }
            assert_eq!(receiver.unprotect(&mut wire, (end + t) as u64), Ok(end));
        }
    }
}

/// 2,048 bytes on the wire, the tag and an added block included.
#[test]
fn the_largest_packet() {
    for (suite, t) in SUITES {
        assert_eq!(protect(suite, 0, 0x80, 2_048 - t, 2_048), Ok(2_048));
        assert_eq!(protect(suite, 0, 0x80, 2_049 - t, 4_096), Err(Refusal::Large));
        for policy in [1, 2] {
            assert_eq!(protect(suite, policy, 0x81, 2_044 - t, 2_048), Ok(2_048));
            assert_eq!(protect(suite, policy, 0x81, 2_045 - t, 4_096), Err(Refusal::Large));
            assert_eq!(protect(suite, policy, 0x80, 2_048 - t, 2_048), Ok(2_048));
        }
        let mut receiver = session(suite, 0, Way::Receiving);
        assert_eq!(receiver.unprotect(&mut buffer(0x80, 3_000), 2_048), Err(Refusal::Tag));
        assert_eq!(receiver.unprotect(&mut buffer(0x80, 3_000), 2_049), Err(Refusal::Large));
    }
}

#[test]
fn the_least_room() {
    for (suite, t) in SUITES {
        for n in [12, 28, 100] {
            assert_eq!(protect(suite, 0, 0x80, n, n + t), Ok(n + t));
            assert_eq!(protect(suite, 0, 0x80, n, n + t - 1), Err(Refusal::Room));
            assert_eq!(protect(suite, 1, 0x82, n + 8, n + t + 12), Ok(n + t + 12));
            assert_eq!(protect(suite, 1, 0x82, n + 8, n + t + 11), Err(Refusal::Room));
        }
    }
}

/// It counts as one of the first suite, also where its making asked for the second.
#[test]
fn an_unmade_session() {
    assert_eq!(Session::unmade().suite(), Suite::CounterMode);
    let mut desk = Desk::default();
    let make = format!("make 0 {} {} 3 - gcm", "00".repeat(16), "00".repeat(12));
    let packet = "81".to_string() + &"00".repeat(2_100);
    for (line, expected) in [
        (make, "16"),
        ("state 0".to_string(), "0 0 -"),
        (format!("unprotect 0 21 {packet}"), "2 0 "),
        (format!("unprotect 0 25 {packet}"), "4 0 "),
        (format!("unprotect 0 26 {packet}"), "9 0 "),
        (format!("unprotect 0 2048 {packet}"), "9 0 "),
        (format!("protect 0 2038 {packet}"), "9 0 "),
        (format!("protect 0 2039 {packet}"), "7 0 "),
        (format!("protect 0 2038 {}", &packet[..2 * 2_048]), "9 0 "),
        (format!("protect 0 2038 {}", &packet[..2 * 2_047]), "8 0 "),
        ("add 0 00000000 s 0".to_string(), "15"),
    ] {
        let answer = String::from_utf8(desk.answer(line.as_bytes()).unwrap()).unwrap();
        assert!(answer.starts_with(expected), "{}: {answer}", &line[..line.len().min(40)]);
    }
}

/// Neither suite takes the other's packets, although both have the same session key. A session that is
/// made again with the other suite takes them, and has forgotten its streams.
#[test]
fn packets_of_the_other_suite() {
    let [counter_mode, gcm] = SUITES;
    for ((suite, t), (other, _)) in [(counter_mode, gcm), (gcm, counter_mode)] {
        for policy in 0..3 {
            let mut wire = buffer(0x80, 60 + t);
            assert_eq!(session(suite, policy, Way::Sending).protect(&mut wire, 60), Ok(60 + t));
            let before = wire.clone();
            let mut receiver = session(other, policy, Way::Receiving);
            let n = wire.len() as u64;
            assert_eq!(receiver.unprotect(&mut wire, n), Err(Refusal::Tag));
            assert_eq!(wire, before);
            let salt = &SALT[..suite.salt_length()];
            receiver = Session::make(suite, &KEY, salt, policy, &[]).unwrap();
            assert_eq!(receiver.unprotect(&mut wire, n), Err(Refusal::Stream));
            receiver.add(SSRC, Way::Receiving, 0).unwrap();
            assert_eq!(receiver.unprotect(&mut wire, n), Ok(60));
        }
    }
}

/// The same packet, 65,536 later: another index, so other bytes and another tag. The earlier one's
/// wire bytes are refused in its place.
#[test]
fn packets_65_536_apart() {
    for (suite, t) in SUITES {
        let (mut sender, mut receiver) =
            (session(suite, 0, Way::Sending), session(suite, 0, Way::Receiving));
        let mut wires = Vec::new();
        for sequence in [5u16, 32_772, 3, 5] {
            let mut wire = buffer(0x80, 40 + t);
            wire[2..4].copy_from_slice(&sequence.to_be_bytes());
            assert_eq!(sender.protect(&mut wire, 40), Ok(40 + t));
            wires.push(wire);
        }
        let mut unprotect = |place: usize| {
            let mut wire = wires[place].clone();
            let n = wire.len() as u64;
            receiver.unprotect(&mut wire, n)
        };
        for place in 0..3 {
            assert_eq!(unprotect(place), Ok(40));
        }
        assert_eq!(unprotect(0), Err(Refusal::Tag));
        assert_eq!(unprotect(3), Ok(40));
        assert_eq!(unprotect(0), Err(Refusal::Repeat));
        assert_eq!(wires[0][..12], wires[3][..12]);
        assert_ne!(wires[0][12..40], wires[3][12..40]);
        assert_ne!(wires[0][40..], wires[3][40..]);
    }
}

/// The rollover is in the tag also where nothing is encrypted, and so is every bit of the header.
#[test]
fn nothing_but_a_header() {
    for (suite, t) in SUITES {
        let n = 12 + t as u64;
        let mut wire = buffer(0x80, 12 + t);
        session(suite, 0, Way::Sending).protect(&mut wire, 12).unwrap();
        let mut later = Session::make(suite, &KEY, &SALT[..suite.salt_length()], 0, &[]).unwrap();
        later.add(SSRC, Way::Receiving, 1).unwrap();
        assert_eq!(later.unprotect(&mut wire, n), Err(Refusal::Tag));
        let mut receiver = session(suite, 0, Way::Receiving);
        for bit in 0..8 * wire.len() {
            let mut copy = wire.clone();
            copy[bit / 8] ^= 1 << (bit % 8);
            assert!(receiver.unprotect(&mut copy, n).is_err(), "bit {bit}");
        }
        assert_eq!(receiver.unprotect(&mut wire, n), Ok(12));
    }
}

/// Behind the last index there is none: WORN both ways, before TAG.
#[test]
fn the_last_index() {
    for (suite, t) in SUITES {
        let salt = &SALT[..suite.salt_length()];
        let mut ends = [Way::Sending, Way::Receiving].map(|way| {
            let mut session = Session::make(suite, &KEY, salt, 0, &[]).unwrap();
            session.add(SSRC, way, u32::MAX).unwrap();
            session
        });
        let mut wire = buffer(0x80, 20 + t);
        wire[2..4].fill(0xff);
        let mut next = buffer(0x80, 20 + t);
        assert_eq!(ends[0].protect(&mut wire, 20), Ok(20 + t));
        assert_eq!(ends[1].unprotect(&mut wire, 20 + t as u64), Ok(20));
        assert_eq!(ends[0].protect(&mut next, 20), Err(Refusal::Worn));
        assert_eq!(ends[1].unprotect(&mut next, 20 + t as u64), Err(Refusal::Worn));
    }
}

/// PROFILE and ORDER on protect are given under either suite.
#[test]
fn protect_refuses_as_before() {
    for (suite, t) in SUITES {
        for (tag, expected) in [
            (0xbede_u16, Ok(40 + t)),
            (0x1000, Ok(40 + t)),
            (0x1001, Err(Refusal::Profile)),
            (0xc0de, Err(Refusal::Profile)),
            (0xc2de, Err(Refusal::Profile)),
        ] {
            let mut buffer = buffer(0x90, 60);
            buffer[12..14].copy_from_slice(&tag.to_be_bytes());
            assert_eq!(session(suite, 1, Way::Sending).protect(&mut buffer, 40), expected);
        }
        let mut sender = session(suite, 0, Way::Sending);
        for (sequence, expected) in [
            (7_u16, Ok(20 + t)),
            (7, Err(Refusal::Order)),
            (6, Err(Refusal::Order)),
            (32_775, Err(Refusal::Order)),
            (32_774, Ok(20 + t)),
        ] {
            let mut buffer = buffer(0x80, 60);
            buffer[2..4].copy_from_slice(&sequence.to_be_bytes());
            assert_eq!(sender.protect(&mut buffer, 20), expected);
        }
    }
}

/// Cryptex required: contributors in clear are refused under either suite.
#[test]
fn contributors_in_clear() {
    for (suite, t) in SUITES {
        let mut wire = buffer(0x82, 30 + t);
        let n = wire.len() as u64;
        session(suite, 0, Way::Sending).protect(&mut wire, 30).unwrap();
        let mut receiver = session(suite, 2, Way::Receiving);
        assert_eq!(receiver.unprotect(&mut wire, n), Err(Refusal::Profile));
        assert_eq!(session(suite, 1, Way::Receiving).unprotect(&mut wire, n), Ok(30));
    }
}

#[test]
fn makings_that_can_be_read() {
    let answer = |line: &str| Desk::default().answer(line.as_bytes()).unwrap();
    assert_eq!(answer("make 0 - - 0 - gcm"), b"15");
    assert_eq!(answer("make 007 - - 0003 0001ff gcm"), b"15");
    for line in [
        "make 0 - - 0 - GCM",
        "make 0 - - 0 - gcm0",
        "make 0 - - 0 - gc",
        "make 0 - - 0 - -",
        "make 0 - - 0 - 0",
        "make 0 - - 0 - gcm gcm",
        "make 0 - - 0 - gcm ",
        "make 0 - - 0 -  gcm",
        "make 0 - - 0 gcm",
        "make 0 - - gcm",
        "make gcm",
        "make",
        "make 8 - - 0 - gcm",
        "make 0 a - 0 - gcm",
        "make 0 - - x - gcm",
        "make 0 - - 0 - gcm\r",
        "add 0 00000000 s 0 gcm",
        "state 0 gcm",
    ] {
        assert_eq!(answer(line), b"?", "{line:?}");
    }
}

/// An unreadable making changes nothing; a readable one takes the session's place.
#[test]
fn makings_change_the_session() {
    let mut desk = Desk::default();
    let (key, salt) = ("11".repeat(16), "22".repeat(14));
    for (line, expected) in [
        (format!("make 0 {key} {salt} 3 05"), "0"),
        ("add 0 00000001 r 0".to_string(), "0"),
        (format!("make 0 {key} {} 1 - ctr", &salt[..24]), "?"),
        ("state 0".to_string(), "1 3 00000001:r:-:-"),
        (format!("make 0 {key} {} 1 - gcm", &salt[..24]), "0"),
        ("state 0".to_string(), "1 1 -"),
        (format!("make 0 {key} {} 1 -", &salt[..24]), "15"),
        ("state 0".to_string(), "0 0 -"),
        (format!("make 0 {key} {salt} 3 - gcm"), "15"),
        (format!("make 0 {key} {} 3 - gcm", &salt[..24]), "16"),
    ] {
        let answer = desk.answer(line.as_bytes()).unwrap();
        assert_eq!(String::from_utf8(answer).unwrap(), expected, "{line}");
    }
}
