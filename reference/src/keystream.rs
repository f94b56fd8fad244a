//! AES counter mode, packets' keystreams and the session keys, after RFC 3711 sections 4.1.1 and 4.3
//! (key derivation rate 0), change request 6 and, for the header key and salt, RFC 6904 section 3.

use crate::aes::{Aes, BLOCK};
use crate::refusal::{refuse_if, Refusal};

pub const KEY: usize = 16;
pub const SALT: usize = 14;
pub const AUTHENTICATION: usize = 20;

/// Bytes in one packet's keystream: the counter has 16 bits, so there are 2^16 blocks.
pub const STREAM_END: u128 = 1 << 20;

/// `length` keystream bytes: the counter block starts at `start` and grows by 1 per block.
pub fn aes_cm(key: &[u8; KEY], start: u128, length: usize) -> Vec<u8> {
    let cipher = Aes::new(key);
    let mut stream = Vec::new();
    let mut counter = start;
    while stream.len() < length {
        let block: [u8; BLOCK] = cipher.encrypt(&counter.to_be_bytes());
        stream.extend(block);
        // RFC 3711 section 4.1.1 adds modulo 2^128; no packet is long enough to reach the wrap.
        counter = counter.wrapping_add(1);
    }
    stream.truncate(length);
    stream
}

/// The salt as a 112-bit number times 2^16: the first 14 bytes of a counter block.
fn salt_block(salt: &[u8; SALT]) -> u128 {
    let number = salt.iter().fold(0u128, |number, byte| (number << 8) | u128::from(*byte));
    number << 16
}

/// RFC 3711 section 4.3.1: x is the master salt XOR the label at byte 7; the key is AES-CM's
/// output under the master key from x * 2^16 on.
pub fn derive<const N: usize>(master: &[u8; KEY], salt: &[u8; SALT], label: u8) -> [u8; N] {
    let mut x = *salt;
    x[7] ^= label;
    let mut key = [0; N];
    key.copy_from_slice(&aes_cm(master, salt_block(&x), N));
    key
}

/// One packet's keystream, or its second one: all that its bytes depend on.
#[derive(Clone, PartialEq, Eq)]
pub struct Keystream {
    pub key: [u8; KEY],
    pub salt: [u8; SALT],
    pub ssrc: u32,
    /// Below 2^48.
    pub index: u128,
}

impl Keystream {
    /// RFC 3711 section 4.1.1: salt * 2^16 XOR SSRC * 2^64 XOR index * 2^16.
    fn first_block(&self) -> u128 {
        salt_block(&self.salt) ^ (u128::from(self.ssrc) << 64) ^ (self.index << 16)
    }

    /// `length` bytes from byte `start` on, or LARGE where they end past the keystream's end.
    pub fn stretch(&self, start: u64, length: usize) -> Result<Vec<u8>, Refusal> {
        let start = u128::from(start);
        // In 128 bits, because the sum of any start and a length may not fit 64.
        refuse_if(start + length as u128 > STREAM_END, Refusal::Large)?;
        let (block, skipped) = (start / BLOCK as u128, (start % BLOCK as u128) as usize);
        // An empty stretch at 2^20 begins a block past the last one. The sum may wrap there, and no
        // block is made of it.
        let counter = self.first_block().wrapping_add(block);
        Ok(aes_cm(&self.key, counter, skipped + length).split_off(skipped))
    }
}

/// What a session derives from its master key and salt.
#[derive(Clone)]
pub struct SessionKeys {
    pub cipher_key: [u8; KEY],
    pub cipher_salt: [u8; SALT],
    pub authentication_key: [u8; AUTHENTICATION],
    pub header_key: [u8; KEY],
    pub header_salt: [u8; SALT],
}

impl SessionKeys {
    pub fn derive(master: &[u8; KEY], salt: &[u8; SALT]) -> SessionKeys {
        SessionKeys {
            cipher_key: derive(master, salt, 0),
            authentication_key: derive(master, salt, 1),
            cipher_salt: derive(master, salt, 2),
            header_key: derive(master, salt, 6),
            header_salt: derive(master, salt, 7),
        }
    }

    /// The keystream for contributors, block and payload.
    pub fn packet_stream(&self, ssrc: u32, index: u128) -> Keystream {
        Keystream { key: self.cipher_key, salt: self.cipher_salt, ssrc, index }
    }

    /// RFC 6904's second keystream, for the extension block from its first byte on.
    pub fn header_stream(&self, ssrc: u32, index: u128) -> Keystream {
        Keystream { key: self.header_key, salt: self.header_salt, ssrc, index }
    }
}
