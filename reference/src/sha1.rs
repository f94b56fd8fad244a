//! SHA-1 of a whole message, after FIPS 180-4 (functions: 4.1.1, constants: 4.2.1 and 5.3.1,
//! padding: 5.1.1, computation: 6.1.2).

pub const BLOCK: usize = 64;
pub const DIGEST: usize = 20;

const INITIAL: [u32; 5] = [0x67452301, 0xefcdab89, 0x98badcfe, 0x10325476, 0xc3d2e1f0];

/// Section 4.1.1: f_t(x, y, z) is Ch, Parity, Maj, Parity.
fn function(t: usize, x: u32, y: u32, z: u32) -> u32 {
    match t {
        0..=19 => (x & y) ^ (!x & z),
        40..=59 => (x & y) ^ (x & z) ^ (y & z),
        _ => x ^ y ^ z,
    }
}

/// Section 4.2.1.
fn constant(t: usize) -> u32 {
    match t {
        0..=19 => 0x5a827999,
        20..=39 => 0x6ed9eba1,
        40..=59 => 0x8f1bbcdc,
        _ => 0xca62c1d6,
    }
}

/// Section 5.1.1: a 1 bit, zeros up to 8 bytes before a block's end, the length in bits.
fn pad(message: &[u8]) -> Vec<u8> {
    let bits = (message.len() as u64) * 8;
    let mut padded = message.to_vec();
    padded.push(0x80);
    while padded.len() % BLOCK != BLOCK - 8 {
        padded.push(0);
    }
    padded.extend(bits.to_be_bytes());
    padded
}

/// Section 6.1.2, step 1: the message schedule, all 80 words of it.
fn schedule(block: &[u8]) -> Vec<u32> {
    let mut words: Vec<u32> = block
        .chunks(4)
        .map(|bytes| bytes.iter().fold(0, |word, byte| (word << 8) | u32::from(*byte)))
        .collect();
    for t in 16..80 {
        let word = words[t - 3] ^ words[t - 8] ^ words[t - 14] ^ words[t - 16];
        words.push(word.rotate_left(1));
    }
    words
}

/// Section 6.1.2, steps 2 to 4: the hash value after one more block.
fn compress(hash: [u32; 5], block: &[u8]) -> [u32; 5] {
    let [mut a, mut b, mut c, mut d, mut e] = hash;
    for (t, word) in schedule(block).into_iter().enumerate() {
        let sum = a
            .rotate_left(5)
            .wrapping_add(function(t, b, c, d))
            .wrapping_add(e)
            .wrapping_add(constant(t))
            .wrapping_add(word);
        e = d;
        d = c;
        c = b.rotate_left(30);
        b = a;
        a = sum;
    }
    [
        hash[0].wrapping_add(a),
        hash[1].wrapping_add(b),
        hash[2].wrapping_add(c),
        hash[3].wrapping_add(d),
        hash[4].wrapping_add(e),
    ]
}

pub fn digest(message: &[u8]) -> [u8; DIGEST] {
    let mut hash = INITIAL;
    for block in pad(message).chunks(BLOCK) {
        hash = compress(hash, block);
    }
    let mut bytes = [0; DIGEST];
    for (place, byte) in bytes.iter_mut().enumerate() {
        *byte = hash[place / 4].to_be_bytes()[place % 4];
    }
    bytes
}
