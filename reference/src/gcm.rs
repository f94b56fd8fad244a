//! AES-GCM after SP 800-38D: authenticated encryption with associated data, for IVs of 96 bits and
//! tags of 128. The product is made bit by bit, as the paper has it.

use crate::aes::{Aes, BLOCK};

pub const KEY: usize = 16;
pub const IV: usize = 12;
pub const TAG: usize = 16;

/// Section 6.3: R is 11100001 and 120 zero bits. Bit 0 of a block is its leftmost one.
const R: u128 = 0xe1 << 120;

/// Section 6.2: inc32 adds 1 to the last 32 bits, modulo 2^32, and leaves the other 96.
fn increment(block: u128) -> u128 {
    let counter = (block as u32).wrapping_add(1);
    block >> 32 << 32 | u128::from(counter)
}

/// Section 6.3, algorithm 1: the product of two blocks.
fn multiply(x: u128, y: u128) -> u128 {
    let mut z = 0;
    let mut v = y;
    for i in 0..128 {
        if x >> (127 - i) & 1 == 1 {
            z ^= v;
        }
        v = if v & 1 == 0 { v >> 1 } else { v >> 1 ^ R };
    }
    z
}

/// The blocks of a byte string, the last one filled up with zeros.
fn blocks(bytes: &[u8]) -> impl Iterator<Item = u128> + '_ {
    bytes.chunks(BLOCK).map(|chunk| {
        let mut block = [0; BLOCK];
        block[..chunk.len()].copy_from_slice(chunk);
        u128::from_be_bytes(block)
    })
}

/// Section 6.4, algorithm 2.
fn ghash(hash_key: u128, blocks: impl Iterator<Item = u128>) -> u128 {
    blocks.fold(0, |y, block| multiply(y ^ block, hash_key))
}

/// A key, made ready: its cipher, and the hash subkey H, which is the zero block encrypted.
pub struct Gcm {
    cipher: Aes,
    hash_key: u128,
}

impl Gcm {
    pub fn new(key: &[u8; KEY]) -> Gcm {
        let cipher = Aes::new(key);
        let hash_key = u128::from_be_bytes(cipher.encrypt(&[0; BLOCK]));
        Gcm { cipher, hash_key }
    }

    /// Section 7.1, step 2: J0 is the IV, 31 zero bits and a one.
    fn first_counter(iv: &[u8; IV]) -> u128 {
        let mut block = [0; BLOCK];
        block[..IV].copy_from_slice(iv);
        block[BLOCK - 1] = 1;
        u128::from_be_bytes(block)
    }

    /// Section 6.5, algorithm 3: GCTR.
    fn counter_mode(&self, first: u128, text: &[u8]) -> Vec<u8> {
        let mut counter = first;
        let mut result = Vec::new();
        for chunk in text.chunks(BLOCK) {
            let stream = self.cipher.encrypt(&counter.to_be_bytes());
            result.extend(chunk.iter().zip(stream).map(|(byte, key_byte)| byte ^ key_byte));
            counter = increment(counter);
        }
        result
    }

    /// Section 7.1, steps 4 to 6: the hash over associated data and cipher text, each filled up to
    /// whole blocks, and their lengths in bits; then GCTR from J0 on.
    fn tag(&self, iv: &[u8; IV], data: &[u8], cipher_text: &[u8]) -> [u8; TAG] {
        let bits = |bytes: &[u8]| 8 * bytes.len() as u128;
        let lengths = bits(data) << 64 | bits(cipher_text);
        let hashed = blocks(data).chain(blocks(cipher_text)).chain([lengths]);
        let hash = ghash(self.hash_key, hashed).to_be_bytes();
        let mut tag = [0; TAG];
        tag.copy_from_slice(&self.counter_mode(Gcm::first_counter(iv), &hash));
        tag
    }

    /// Section 7.1, algorithm 4: the cipher text and its tag. `data` is only authenticated.
    pub fn encrypt(&self, iv: &[u8; IV], data: &[u8], plain: &[u8]) -> (Vec<u8>, [u8; TAG]) {
        let cipher_text = self.counter_mode(increment(Gcm::first_counter(iv)), plain);
        let tag = self.tag(iv, data, &cipher_text);
        (cipher_text, tag)
    }

    /// Section 7.2, algorithm 5: the plain text, or None where the tag is another one. Nothing is
    /// decrypted then.
    pub fn decrypt(
        &self,
        iv: &[u8; IV],
        data: &[u8],
        cipher_text: &[u8],
        tag: &[u8],
    ) -> Option<Vec<u8>> {
        if self.tag(iv, data, cipher_text) != tag {
            return None;
        }
        Some(self.counter_mode(increment(Gcm::first_counter(iv)), cipher_text))
    }
}
