//! The suites a session can be of, after document 01 (AES_CM_128_HMAC_SHA1_80 of RFC 3711) and
//! change request 3 (AEAD_AES_128_GCM of RFC 7714), and what each does to a packet's bytes.

use crate::gcm::{self, Gcm};
use crate::hmac::hmac_sha1;
use crate::keystream::{derive, SessionKeys, KEY, SALT};
use crate::refusal::{refuse_if, Refusal};

#[derive(Clone, Copy, Debug, PartialEq, Eq)]
pub enum Suite {
    /// Counter mode and HMAC-SHA1: the first suite, and the one an unmade session counts as.
    CounterMode,
    /// AES-GCM: the second suite.
    Gcm,
}

impl Suite {
    /// Bytes of the master salt.
    pub fn salt_length(self) -> usize {
        match self {
            Suite::CounterMode => SALT,
            Suite::Gcm => gcm::IV,
        }
    }

    /// Bytes of the authentication tag.
    pub fn tag_length(self) -> usize {
        match self {
            Suite::CounterMode => 10,
            Suite::Gcm => gcm::TAG,
        }
    }
}

/// The session key and salt of the second suite.
#[derive(Clone)]
pub struct GcmKeys {
    pub key: [u8; KEY],
    pub salt: [u8; gcm::IV],
}

impl GcmKeys {
    /// Derived as in the first suite. RFC 3711's function takes 14 bytes of salt, so two zero bytes
    /// follow the twelve.
    pub fn derive(master: &[u8; KEY], salt: &[u8; gcm::IV]) -> GcmKeys {
        let mut filled_up = [0; SALT];
        filled_up[..gcm::IV].copy_from_slice(salt);
        GcmKeys { key: derive(master, &filled_up, 0), salt: derive(master, &filled_up, 2) }
    }

    /// RFC 7714 section 8.1: two zero bytes, the SSRC and the 48-bit index (rollover and sequence
    /// number), XOR the salt.
    pub fn iv(&self, ssrc: u32, index: u128) -> [u8; gcm::IV] {
        let mut iv = self.salt;
        let numbers = [&[0; 2], &ssrc.to_be_bytes()[..], &index.to_be_bytes()[10..]].concat();
        for (byte, number) in iv.iter_mut().zip(numbers) {
            *byte ^= number;
        }
        iv
    }
}

/// What a session derives from its master key and salt, under either suite.
#[derive(Clone)]
pub enum Keys {
    CounterMode(SessionKeys),
    Gcm(GcmKeys),
}

impl Keys {
    /// KEYS where the master key or the salt has not the suite's length.
    pub fn derive(suite: Suite, master: &[u8], salt: &[u8]) -> Result<Keys, Refusal> {
        let master = master.try_into().map_err(|_| Refusal::Keys)?;
        refuse_if(salt.len() != suite.salt_length(), Refusal::Keys)?;
        Ok(match suite {
            Suite::CounterMode => {
                let salt = salt.try_into().map_err(|_| Refusal::Keys)?;
                Keys::CounterMode(SessionKeys::derive(master, salt))
            }
            Suite::Gcm => {
                let salt = salt.try_into().map_err(|_| Refusal::Keys)?;
                Keys::Gcm(GcmKeys::derive(master, salt))
            }
        })
    }

    pub fn suite(&self) -> Suite {
        match self {
            Keys::CounterMode(_) => Suite::CounterMode,
            Keys::Gcm(_) => Suite::Gcm,
        }
    }

    /// Encrypts the bytes at these places, in their order, and gives the tag of the packet that
    /// comes of it. All other bytes are authenticated as they are.
    pub fn seal(&self, name: Name, bytes: &mut [u8], places: &[usize]) -> Result<Vec<u8>, Refusal> {
        match self {
            Keys::CounterMode(keys) => {
                encrypt_places(keys, name, bytes, places)?;
                Ok(hmac_tag(keys, name, bytes))
            }
            Keys::Gcm(keys) => {
                let (data, plain) = (clear_bytes(bytes, places), bytes_at(bytes, places));
                let (cipher_text, tag) =
                    Gcm::new(&keys.key).encrypt(&keys.iv(name.ssrc, name.index), &data, &plain);
                put_at(bytes, places, &cipher_text);
                Ok(tag.to_vec())
            }
        }
    }

    /// Undoes `seal`, or says TAG and leaves the bytes as they came.
    pub fn open(
        &self,
        name: Name,
        bytes: &mut [u8],
        places: &[usize],
        tag: &[u8],
    ) -> Result<(), Refusal> {
        match self {
            Keys::CounterMode(keys) => {
                refuse_if(hmac_tag(keys, name, bytes) != tag, Refusal::Tag)?;
                encrypt_places(keys, name, bytes, places)
            }
            Keys::Gcm(keys) => {
                let (data, cipher_text) = (clear_bytes(bytes, places), bytes_at(bytes, places));
                let iv = keys.iv(name.ssrc, name.index);
                let plain = Gcm::new(&keys.key).decrypt(&iv, &data, &cipher_text, tag);
                put_at(bytes, places, &plain.ok_or(Refusal::Tag)?);
                Ok(())
            }
        }
    }
}

/// What tells a packet from all others under the same keys.
#[derive(Clone, Copy)]
pub struct Name {
    pub ssrc: u32,
    /// Below 2^48.
    pub index: u128,
}

/// XORs the bytes at the given places with one unbroken keystream. A packet has at most 2,048 bytes,
/// so no stretch of its keystream is refused.
fn encrypt_places(
    keys: &SessionKeys,
    name: Name,
    bytes: &mut [u8],
    places: &[usize],
) -> Result<(), Refusal> {
    let keystream = keys.packet_stream(name.ssrc, name.index);
    for (place, key_byte) in places.iter().zip(keystream.stretch(0, places.len())?) {
        bytes[*place] ^= key_byte;
    }
    Ok(())
}

/// The first suite's tag: the first 10 bytes of the HMAC over the wire bytes and the rollover.
fn hmac_tag(keys: &SessionKeys, name: Name, wire: &[u8]) -> Vec<u8> {
    // The index is at most 2^48 - 1, so the rollover is 32 bits wide.
    let rollover = (name.index / 65_536) as u32;
    let mut text = wire.to_vec();
    text.extend(rollover.to_be_bytes());
    let digest = hmac_sha1(&keys.authentication_key, &text);
    digest[..Suite::CounterMode.tag_length()].to_vec()
}

fn bytes_at(bytes: &[u8], places: &[usize]) -> Vec<u8> {
    places.iter().map(|place| bytes[*place]).collect()
}

/// The second suite's associated data: the bytes that are not encrypted, in their order.
fn clear_bytes(bytes: &[u8], places: &[usize]) -> Vec<u8> {
    let mut is_clear = vec![true; bytes.len()];
    for place in places {
        is_clear[*place] = false;
    }
    let clear = bytes.iter().zip(is_clear).filter(|(_, is_clear)| *is_clear);
    clear.map(|(byte, _)| *byte).collect()
}

fn put_at(bytes: &mut [u8], places: &[usize], values: &[u8]) {
    for (place, value) in places.iter().zip(values) {
        bytes[*place] = *value;
    }
}
