//! Random packets and extension blocks, well-formed and hostile, in the layout of document 01.

use super::dice::Dice;
use crate::suite::Suite;

/// A packet in parts. What byte 0 and the count claim need not be what is there.
#[derive(Clone)]
pub struct Draft {
    pub version: u8,
    pub has_padding: bool,
    pub has_extension: bool,
    pub claimed_contributors: u8,
    pub marker_and_type: u8,
    pub sequence: u16,
    pub timestamp: u32,
    pub ssrc: u32,
    pub contributors: Vec<u8>,
    pub tag: u16,
    pub claimed_words: u16,
    pub block: Vec<u8>,
    pub payload: Vec<u8>,
}

impl Draft {
    pub fn bytes(&self) -> Vec<u8> {
        let bits = u8::from(self.has_padding) << 5 | u8::from(self.has_extension) << 4;
        let mut bytes = vec![self.version << 6 | bits | self.claimed_contributors & 15];
        bytes.push(self.marker_and_type);
        bytes.extend(self.sequence.to_be_bytes());
        bytes.extend(self.timestamp.to_be_bytes());
        bytes.extend(self.ssrc.to_be_bytes());
        bytes.extend(&self.contributors);
        if self.has_extension {
            bytes.extend(self.tag.to_be_bytes());
            bytes.extend(self.claimed_words.to_be_bytes());
            bytes.extend(&self.block);
        }
        bytes.extend(&self.payload);
        bytes
    }

    /// Whether Cryptex would add its empty block.
    pub fn takes_added_block(&self, policy: u64) -> bool {
        (policy == 1 || policy == 2) && !self.has_extension && self.claimed_contributors > 0
    }

    pub fn protected_length(&self, suite: Suite, policy: u64) -> usize {
        let added = if self.takes_added_block(policy) { 4 } else { 0 };
        self.bytes().len() + added + suite.tag_length()
    }

    pub fn set_contributors(&mut self, dice: &mut Dice, count: u8) {
        self.claimed_contributors = count;
        self.contributors = dice.bytes(4 * usize::from(count));
    }

    pub fn set_block(&mut self, tag: u16, block: Vec<u8>) {
        self.has_extension = true;
        self.tag = tag;
        self.claimed_words = (block.len() / 4) as u16;
        self.block = block;
    }
}

/// A bare packet: fixed header and payload.
pub fn bare(dice: &mut Dice, ssrc: u32, sequence: u16, payload: usize) -> Draft {
    Draft {
        version: 2,
        has_padding: dice.one_in(4),
        has_extension: false,
        claimed_contributors: 0,
        marker_and_type: dice.byte(),
        sequence,
        timestamp: dice.number_32(),
        ssrc,
        contributors: Vec::new(),
        tag: 0,
        claimed_words: 0,
        block: Vec::new(),
        payload: dice.bytes(payload),
    }
}

/// A packet that protect takes under this policy.
pub fn good(dice: &mut Dice, ssrc: u32, sequence: u16, policy: u64) -> Draft {
    let most = if dice.one_in(100) { 900 } else { 40 };
    let payload = dice.size(0, most);
    let mut draft = bare(dice, ssrc, sequence, payload);
    if dice.one_in(2) {
        let most = if dice.one_in(12) { 15 } else { 3 };
        let count = dice.between(1, most) as u8;
        draft.set_contributors(dice, count);
    }
    if dice.one_in(2) {
        let tag = good_tag(dice, policy);
        let block = if policy != 3 && dice.one_in(6) {
            hostile_block(dice, tag)
        } else {
            good_block(dice, tag)
        };
        draft.set_block(tag, block);
    }
    draft
}

/// A packet with any tag and any block, and sometimes with something wrong in its header.
pub fn hostile(dice: &mut Dice, ssrc: u32, sequence: u16) -> Draft {
    let payload = dice.size(0, 24);
    let mut draft = bare(dice, ssrc, sequence, payload);
    let count = dice.pick(&[0, 0, 1, 2, 15]);
    draft.set_contributors(dice, count);
    if !dice.one_in(4) {
        let tag = any_tag(dice);
        let block = if dice.one_in(3) { good_block(dice, tag) } else { hostile_block(dice, tag) };
        draft.set_block(tag, block);
    }
    match dice.below(12) {
        0 => draft.version = dice.pick(&[0, 1, 3]),
        1 => draft.claimed_contributors = dice.below(16) as u8,
        2 => draft.claimed_words = dice.pick(&[0, 1, 2, 3, 4, 16_383, 16_384, 65_535]),
        3 => draft.claimed_words = draft.claimed_words.wrapping_add(1),
        4 => draft.claimed_words = draft.claimed_words.saturating_sub(1),
        5 => draft.has_extension = !draft.has_extension,
        _ => (),
    }
    draft
}

/// A tag that protect takes under this policy.
fn good_tag(dice: &mut Dice, policy: u64) -> u16 {
    if policy == 1 || policy == 2 {
        dice.pick(&[0xbede, 0xbede, 0x1000])
    } else if dice.one_in(3) {
        any_tag(dice)
    } else {
        dice.pick(&[0xbede, 0x1000])
    }
}

/// Every tag that is written in the papers, its neighbours, and any other.
pub fn any_tag(dice: &mut Dice) -> u16 {
    match dice.below(10) {
        0..=2 => 0xbede,
        3 => 0x1000,
        4 | 5 => 0x1000 + dice.below(16) as u16,
        6 => 0xc0de,
        7 => 0xc2de,
        8 => dice.pick(&[0x0fff, 0x1010, 0x0100, 0xbedd, 0xbedf, 0xc1de, 0xdeba, 0x0010, 0]),
        _ => dice.number_16(),
    }
}

fn is_one_byte(tag: u16) -> bool {
    tag == 0xbede || tag == 0xc0de
}

/// Zero bytes up to a multiple of four.
fn fill_up(block: &mut Vec<u8>) {
    while !block.len().is_multiple_of(4) {
        block.push(0);
    }
}

/// Whole elements with padding before, between and behind them, and sometimes an early end.
pub fn good_block(dice: &mut Dice, tag: u16) -> Vec<u8> {
    let mut block = Vec::new();
    for _ in 0..dice.below(4) {
        let padding = dice.pick(&[0, 0, 0, 1, 2, 3]);
        block.extend(vec![0; padding]);
        add_element(dice, &mut block, is_one_byte(tag));
    }
    if is_one_byte(tag) && dice.one_in(6) {
        // Id 15, or id 0 with a length: nothing behind it is read.
        let end = if dice.one_in(2) { 0xf0 | dice.below(16) } else { dice.between(1, 15) };
        block.push(end as u8);
        let unread = dice.size(0, 6);
        block.extend(dice.bytes(unread));
    }
    fill_up(&mut block);
    block
}

fn add_element(dice: &mut Dice, block: &mut Vec<u8>, is_one_byte: bool) {
    let most = if dice.one_in(10) { 15 } else { 3 };
    let length = dice.below(most + 1) as u8;
    if is_one_byte {
        let id = dice.pick(&[1, 2, 3, 4, 5, 13, 14]);
        block.push(id << 4 | length);
        block.extend(dice.bytes(usize::from(length) + 1));
    } else {
        let id = dice.pick(&[1, 2, 3, 4, 5, 14, 15, 16, 128, 254, 255]);
        block.extend([id, length]);
        block.extend(dice.bytes(usize::from(length)));
    }
}

/// A block that may read in any way.
pub fn hostile_block(dice: &mut Dice, tag: u16) -> Vec<u8> {
    match dice.below(4) {
        0 => {
            let words = dice.size(0, 4);
            dice.bytes(4 * words)
        }
        1 | 2 => brink_block(dice, tag),
        _ => {
            let mut block = good_block(dice, tag);
            change_a_byte(dice, &mut block);
            block
        }
    }
}

/// Padding, then one element that ends exactly with the block or one byte past it, or that has no
/// place for its length byte.
pub fn brink_block(dice: &mut Dice, tag: u16) -> Vec<u8> {
    let mut block = vec![0; 4 * dice.size(1, 5)];
    let past = dice.size(0, 1);
    // Bytes from the element's first one to the block's end.
    let room = dice.size(1, block.len().min(16));
    let at = block.len() - room;
    let filling = dice.bytes(room);
    block[at..].copy_from_slice(&filling);
    if is_one_byte(tag) {
        let id = dice.between(1, 14) as u8;
        // room - 1 data bytes fit, and the length nibble is one less than their number.
        block[at] = id << 4 | (room + past).saturating_sub(2).min(15) as u8;
    } else {
        block[at] = dice.between(1, 255) as u8;
        if room > 1 {
            block[at + 1] = (room - 2 + past) as u8;
        }
    }
    block
}

/// Changes one byte of a string that is not empty.
pub fn change_a_byte(dice: &mut Dice, bytes: &mut [u8]) {
    if !bytes.is_empty() {
        let place = dice.size(0, bytes.len() - 1);
        bytes[place] ^= dice.between(1, 255) as u8;
    }
}
