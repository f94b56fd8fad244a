//! "Sums on the bench" of document 01: G1 to G7, S1, S2, M1 to M4 and the run-only ones.

use reference::index::next_sent;
use reference::refusal::Refusal;
use reference::script::Desk;
use reference::session::{Session, Way};
use reference::suite::Suite;

const KEY: [u8; 16] = [7; 16];
const SALT: [u8; 14] = [9; 14];
const SSRC: u32 = 0x0102_0304;

fn answer(line: &str) -> String {
    String::from_utf8(Desk::default().answer(line.as_bytes()).unwrap()).unwrap()
}

#[test]
fn guesses() {
    // G1 and G2.
    assert_eq!(answer("guess 65535 0"), "0 65536 1");
    assert_eq!(answer("guess 65536 65535"), "0 65535 -1");
    // G3: OLD, although only 1 behind.
    assert_eq!(answer("guess 0 65535"), "12 0 -1");
    // G4 and G5: the two ties.
    assert_eq!(answer("guess 0 32768"), "0 32768 32768");
    assert_eq!(answer("guess 32768 0"), "12 0 -32768");
    // G6 and G7.
    assert_eq!(answer("guess 32769 0"), "0 65536 32767");
    assert_eq!(answer("guess 281474976710655 0"), "11 0 1");
    // Run only: highest 100, SEQ 37 taken, 36 OLD.
    assert_eq!(answer("guess 100 37"), "0 37 -63");
    assert_eq!(answer("guess 100 36"), "12 0 -64");
    // The highest itself is accepted already.
    assert_eq!(answer("guess 100 100"), "13 0 0");
}

#[test]
fn steps_of_a_sender() {
    // S1 and S2.
    assert_eq!(next_sent(0, 32_767), Ok(32_767));
    assert_eq!(next_sent(0, 32_768), Err(Refusal::Order));
    assert_eq!(next_sent(65_535, 0), Ok(65_536));
    // At the last index a step is ORDER or WORN.
    let last = (1 << 48) - 1;
    assert_eq!(next_sent(last, 65_535), Err(Refusal::Order));
    assert_eq!(next_sent(last, 0), Err(Refusal::Worn));
    assert_eq!(next_sent(last, 32_766), Err(Refusal::Worn));
    assert_eq!(next_sent(last, 32_767), Err(Refusal::Order));
}

#[test]
fn masks() {
    // M1 to M4.
    assert_eq!(answer("mask bede 10ab0021cdef3077 02"), "0 00000000ffff0000");
    assert_eq!(answer("mask bede 10ab0021cdef3077 0103"), "0 00ff0000000000ff");
    assert_eq!(answer("mask bede 10abf121 01020f"), "0 00ff0000");
    assert_eq!(answer("mask bede 13abcdef -"), "6 -");
}

fn protect_all(policy: u64, first_byte: u8, n: usize) -> Result<usize, Refusal> {
    let mut session = Session::make(Suite::CounterMode, &KEY, &SALT, policy, &[]).unwrap();
    session.add(SSRC, Way::Sending, 0).unwrap();
    let mut buffer = vec![0; 4_096];
    buffer[0] = first_byte;
    buffer[8..12].copy_from_slice(&SSRC.to_be_bytes());
    session.protect(&mut buffer, n as u64)
}

/// Policy 0, n 2,038 fits, 2,039 LARGE; with the added block 2,034 fits, 2,035 LARGE.
#[test]
fn largest_packets() {
    assert_eq!(protect_all(0, 0x80, 2_038), Ok(2_048));
    assert_eq!(protect_all(0, 0x80, 2_039), Err(Refusal::Large));
    for policy in [1, 2] {
        assert_eq!(protect_all(policy, 0x81, 2_034), Ok(2_048));
        assert_eq!(protect_all(policy, 0x81, 2_035), Err(Refusal::Large));
        // Without contributors nothing is added.
        assert_eq!(protect_all(policy, 0x80, 2_038), Ok(2_048));
    }
    assert_eq!(protect_all(3, 0x81, 2_038), Ok(2_048));
}
