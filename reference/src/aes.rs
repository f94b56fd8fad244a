//! AES-128 encryption of one block, after FIPS 197 (field: section 4, cipher: section 5.1, key
//! expansion: section 5.2). Counter mode never decrypts a block, so there is no inverse cipher.

use std::sync::OnceLock;

pub const BLOCK: usize = 16;
const ROUNDS: usize = 10;
/// Four words for the start and four for each round.
const WORDS: usize = 4 * (ROUNDS + 1);

type Word = [u8; 4];
/// FIPS 197 section 3.4: `state[row][column]`.
type State = [[u8; 4]; 4];

/// Section 4.2.1: multiplication by x modulo x^8 + x^4 + x^3 + x + 1.
fn times_x(a: u8) -> u8 {
    let shifted = a << 1;
    if a & 0x80 == 0 {
        shifted
    } else {
        shifted ^ 0x1b
    }
}

/// Section 4.2: the product in the field, as a sum of shifted copies of `a`.
fn multiply(a: u8, b: u8) -> u8 {
    let mut product = 0;
    let mut shifted = a;
    for bit in 0..8 {
        if (b >> bit) & 1 == 1 {
            product ^= shifted;
        }
        shifted = times_x(shifted);
    }
    product
}

/// The field inverse, found by trying every byte; 0 for 0.
fn inverse(a: u8) -> u8 {
    (0..=255).find(|b| multiply(a, *b) == 1).unwrap_or(0)
}

/// Section 5.1.1, equation 5.1: bit i is b(i) + b(i+4) + b(i+5) + b(i+6) + b(i+7) + c(i), c = 63.
fn affine(b: u8) -> u8 {
    let bit = |place: u32| (b >> (place % 8)) & 1;
    let mut result = 0;
    for i in 0..8 {
        let sum = bit(i) ^ bit(i + 4) ^ bit(i + 5) ^ bit(i + 6) ^ bit(i + 7) ^ ((0x63 >> i) & 1);
        result |= sum << i;
    }
    result
}

/// The S-box. It is worked out once and kept, because the search for inverses is slow.
pub fn s_box(a: u8) -> u8 {
    static TABLE: OnceLock<Vec<u8>> = OnceLock::new();
    let table = TABLE.get_or_init(|| (0..=255).map(|a| affine(inverse(a))).collect());
    table[usize::from(a)]
}

/// Section 5.2: SubWord.
fn substitute_word(word: Word) -> Word {
    word.map(s_box)
}

/// Section 5.2: RotWord, [a0, a1, a2, a3] to [a1, a2, a3, a0].
fn rotate_word(word: Word) -> Word {
    [word[1], word[2], word[3], word[0]]
}

fn add_words(a: Word, b: Word) -> Word {
    [a[0] ^ b[0], a[1] ^ b[1], a[2] ^ b[2], a[3] ^ b[3]]
}

/// Section 5.2: the key expansion for a key of four words.
fn expand(key: &[u8; BLOCK]) -> [Word; WORDS] {
    let mut words = [[0; 4]; WORDS];
    for i in 0..4 {
        words[i] = [key[4 * i], key[4 * i + 1], key[4 * i + 2], key[4 * i + 3]];
    }
    let mut round_constant = 1;
    for i in 4..WORDS {
        let mut word = words[i - 1];
        if i % 4 == 0 {
            word = add_words(substitute_word(rotate_word(word)), [round_constant, 0, 0, 0]);
            round_constant = times_x(round_constant);
        }
        words[i] = add_words(words[i - 4], word);
    }
    words
}

fn sub_bytes(state: State) -> State {
    state.map(|row| row.map(s_box))
}

/// Section 5.1.2: row r moves r places to the left.
fn shift_rows(state: State) -> State {
    let mut shifted = state;
    for row in 0..4 {
        for column in 0..4 {
            shifted[row][column] = state[row][(column + row) % 4];
        }
    }
    shifted
}

/// Section 5.1.3: every column is multiplied by {03}x^3 + {01}x^2 + {01}x + {02}.
fn mix_columns(state: State) -> State {
    let mut mixed = state;
    for column in 0..4 {
        let old = |row: usize| state[row % 4][column];
        for (row, mixed_row) in mixed.iter_mut().enumerate() {
            mixed_row[column] =
                multiply(2, old(row)) ^ multiply(3, old(row + 1)) ^ old(row + 2) ^ old(row + 3);
        }
    }
    mixed
}

/// Section 5.1.4: word c of the round key is added to column c.
fn add_round_key(state: State, round_key: &[Word]) -> State {
    let mut sum = state;
    for row in 0..4 {
        for column in 0..4 {
            sum[row][column] ^= round_key[column][row];
        }
    }
    sum
}

/// Section 3.4: the input fills the state column by column.
fn to_state(block: &[u8; BLOCK]) -> State {
    let mut state = [[0; 4]; 4];
    for (place, byte) in block.iter().enumerate() {
        state[place % 4][place / 4] = *byte;
    }
    state
}

fn from_state(state: &State) -> [u8; BLOCK] {
    let mut block = [0; BLOCK];
    for (place, byte) in block.iter_mut().enumerate() {
        *byte = state[place % 4][place / 4];
    }
    block
}

/// A key after its expansion.
pub struct Aes {
    words: [Word; WORDS],
}

impl Aes {
    pub fn new(key: &[u8; BLOCK]) -> Aes {
        Aes { words: expand(key) }
    }

    fn round_key(&self, round: usize) -> &[Word] {
        &self.words[4 * round..4 * round + 4]
    }

    /// Section 5.1, figure 5: Cipher.
    pub fn encrypt(&self, block: &[u8; BLOCK]) -> [u8; BLOCK] {
        let mut state = add_round_key(to_state(block), self.round_key(0));
        for round in 1..ROUNDS {
            state = mix_columns(shift_rows(sub_bytes(state)));
            state = add_round_key(state, self.round_key(round));
        }
        state = shift_rows(sub_bytes(state));
        from_state(&add_round_key(state, self.round_key(ROUNDS)))
    }
}
