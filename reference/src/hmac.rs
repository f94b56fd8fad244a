//! HMAC with SHA-1, after RFC 2104 section 2: H(K XOR opad, H(K XOR ipad, text)).

use crate::sha1;

/// RFC 2104 section 2: the key, hashed if it is longer than a block, then filled up with zeros.
fn block_key(key: &[u8]) -> Vec<u8> {
    let mut block = if key.len() > sha1::BLOCK { sha1::digest(key).to_vec() } else { key.to_vec() };
    block.resize(sha1::BLOCK, 0);
    block
}

fn keyed_digest(key: &[u8], pad: u8, text: &[u8]) -> [u8; sha1::DIGEST] {
    let mut message: Vec<u8> = key.iter().map(|byte| byte ^ pad).collect();
    message.extend(text);
    sha1::digest(&message)
}

pub fn hmac_sha1(key: &[u8], text: &[u8]) -> [u8; sha1::DIGEST] {
    let key = block_key(key);
    let inner = keyed_digest(&key, 0x36, text);
    keyed_digest(&key, 0x5c, &inner)
}
