//! RFC 6904 appendix A.2: keystream, mask and cipher text of the header extension (source document
//! 003 prints them; its "1, 2, and 4" is a slip for 1, 3 and 4).

use reference::elements::{self, id_set};
use reference::hex;
use reference::keystream::SessionKeys;
use reference::packet::{self, Context, Policy};
use reference::suite::Keys;

const MASTER_KEY: &str = "e1f97a0d3e018be0d64fa32c06de4139";
const MASTER_SALT: &str = "0ec675ad498afeebb6960b3aabe6";
const HEADER_KEY: &str = "549752054d6fb708622c4a2e596a1b93";
const HEADER_SALT: &str = "ab01818174c40d39a3781f7c2d27";
const SSRC: u32 = 0xcafe_babe;
const INDEX: u128 = 0x1234;
const PLAIN: &str = "17414273a475262748220000c8308e4655996386b395fb00";
const MASK: &str = "00ffffffffffffffff0000000000ff00ffffffffffffff00";
const KEYSTREAM: &str = "1e19c8e1d481c779549ed1617aaa1b7afc0d933ae7ed6cc8";
const CIPHER_TEXT: &str = "17588a9270f4e15e1c220000c8309546a994f0bc54789700";

fn bytes(word: &str) -> Vec<u8> {
    hex::read(word.as_bytes(), 4_096).unwrap()
}

fn keys() -> SessionKeys {
    let (key, salt) = (bytes(MASTER_KEY), bytes(MASTER_SALT));
    SessionKeys::derive(&key.try_into().unwrap(), &salt.try_into().unwrap())
}

#[test]
fn header_key_and_salt() {
    assert_eq!(hex::write(&keys().header_key), HEADER_KEY);
    assert_eq!(hex::write(&keys().header_salt), HEADER_SALT);
}

#[test]
fn header_keystream() {
    let stream = keys().header_stream(SSRC, INDEX).stretch(0, 24).unwrap();
    assert_eq!(hex::write(&stream), KEYSTREAM);
}

#[test]
fn encryption_mask() {
    let mask = elements::mask(0xbede, &bytes(PLAIN), &id_set(&[1, 3, 4]));
    assert_eq!(hex::write(&mask.unwrap()), MASK);
}

/// The block within a packet, there and back.
#[test]
fn cipher_text() {
    let keys = Keys::CounterMode(keys());
    let ids = id_set(&[4, 1, 3, 3, 0]);
    let context = Context { keys: &keys, policy: Policy::Mask, ids: &ids, index: INDEX as i128 };
    let packet = bytes(&format!("900f1234decafbadcafebabebede0006{PLAIN}abab"));
    let wire = packet::protect(&context, &packet).unwrap();
    assert_eq!(wire.len(), packet.len() + 10);
    assert_eq!(wire[..16], packet[..16]);
    assert_eq!(hex::write(&wire[16..40]), CIPHER_TEXT);
    let (bytes, tag) = wire.split_at(packet.len());
    let plain = packet::unprotect(&context, bytes, tag).unwrap();
    assert_eq!(plain, packet);
}
