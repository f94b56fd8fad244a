//! A scene of keystream stretches, after change request 6: from every kind of place in a block, on
//! both sides of the keystream's end, from where a sum would wrap, joined and in pieces.

use super::dice::Dice;
use super::spoil;
use super::stage::Stage;
use crate::aes::BLOCK;
use crate::keystream::{Keystream, KEY, SALT};

/// One packet's keystream has 2^16 blocks.
const BLOCKS: u64 = 1 << 16;
const END: u64 = BLOCKS * BLOCK as u64;
/// The most bytes of data on a line.
const MOST: usize = 4_096;

pub fn stretches(stage: &mut Stage) -> Option<()> {
    for _ in 0..stage.dice.between(1, 3) {
        let keystream = any_keystream(&mut stage.dice);
        anywhere(stage, &keystream)?;
        at_the_end(stage, &keystream)?;
        in_pieces(stage, &keystream)?;
        past_the_end(stage, &keystream)?;
        for _ in 0..2 {
            let line = spoil::stretch(&mut stage.dice);
            stage.unreadable(&line);
        }
    }
    Some(())
}

fn any_keystream(dice: &mut Dice) -> Keystream {
    let mut keystream =
        Keystream { key: [0; KEY], salt: [0; SALT], ssrc: any_ssrc(dice), index: any_index(dice) };
    fill(dice, &mut keystream.key);
    fill(dice, &mut keystream.salt);
    keystream
}

/// Random bytes, or bytes of one kind.
fn fill(dice: &mut Dice, bytes: &mut [u8]) {
    let same = dice.pick(&[0, 0xff, 0x80]);
    let is_same = dice.one_in(5);
    bytes.fill_with(|| if is_same { same } else { dice.byte() });
}

fn any_ssrc(dice: &mut Dice) -> u32 {
    let any = dice.number_32();
    dice.pick(&[0, 1, 0xffff, 0x1_0000, 0x8000_0000, u32::MAX, any, any, any])
}

fn any_index(dice: &mut Dice) -> u128 {
    let last = (1 << 48) - 1;
    let any = dice.below(last + 1);
    let index =
        dice.pick(&[0, 0, 1, 65_535, 65_536, (1 << 32) - 1, 1 << 32, 1 << 47, last, any, any]);
    u128::from(index)
}

/// The same but for one thing.
fn another(dice: &mut Dice, keystream: &Keystream) -> Keystream {
    let mut other = keystream.clone();
    match dice.below(4) {
        0 => other.key[dice.size(0, KEY - 1)] ^= 1 << dice.below(8),
        1 => other.salt[dice.size(0, SALT - 1)] ^= 1 << dice.below(8),
        2 => other.ssrc ^= 1 << dice.below(32),
        _ => other.index ^= 1 << dice.below(48),
    }
    other
}

/// Lengths around whole blocks, and now and then a long one.
fn any_length(dice: &mut Dice) -> usize {
    if dice.one_in(25) {
        let any = dice.size(200, MOST);
        return dice.pick(&[MOST, MOST - 1, MOST - 15, any]);
    }
    let (blocks, any) = (BLOCK * dice.size(3, 8), dice.size(0, 70));
    dice.pick(&[0, 1, 2, 8, 14, 15, 16, 17, 18, 31, 32, 33, blocks - 1, blocks, blocks + 1, any])
}

/// Zero bytes show the keystream itself.
fn any_data(dice: &mut Dice, length: usize) -> Vec<u8> {
    if dice.one_in(8) {
        vec![0; length]
    } else {
        dice.bytes(length)
    }
}

/// A place at, one before or one after a block's begin, or anywhere in the block. Both bytes of the
/// counter come to their ends.
fn any_start(dice: &mut Dice) -> u64 {
    let any = dice.below(BLOCKS);
    let block = dice.pick(&[
        0, 0, 1, 2, 3, 127, 128, 254, 255, 256, 257, 4_095, 4_096, 32_767, 32_768, 65_279, 65_280,
        65_281, 65_534, 65_535, any, any,
    ]);
    let place = dice.below(16);
    16 * block + dice.pick(&[0, 0, 1, 15, 15, place])
}

/// A stretch, the next lines of which undo it, or give it under another key, salt, SSRC or index.
fn anywhere(stage: &mut Stage, keystream: &Keystream) -> Option<()> {
    for _ in 0..stage.dice.between(1, 3) {
        let (start, length) = (any_start(&mut stage.dice), any_length(&mut stage.dice));
        let data = any_data(&mut stage.dice, length);
        let answer = stage.stretch(keystream, start, &data)?;
        if stage.dice.one_in(3) {
            stage.stretch(keystream, start, &answer.buffer)?;
        }
        if stage.dice.one_in(2) {
            let other = another(&mut stage.dice, keystream);
            stage.stretch(&other, start, &data)?;
        }
    }
    Some(())
}

/// The same bytes, ending one before the end, at it and one past it; then ones around these, and
/// stretches of no bytes.
fn at_the_end(stage: &mut Stage, keystream: &Keystream) -> Option<()> {
    let length = any_length(&mut stage.dice).max(1);
    let data = any_data(&mut stage.dice, length);
    let start = END - length as u64;
    for start in [start - 1, start, start + 1] {
        stage.stretch(keystream, start, &data)?;
    }
    let away = stage.dice.pick(&[2, 14, 15, 16, 17, 32, length as u64 - 1, length as u64]);
    let start = stage.dice.pick(&[start - away, start + away]);
    stage.stretch(keystream, start, &data)?;
    let place = stage.dice.pick(&[0, 1, 16, END - 1, END, END, END + 1]);
    stage.stretch(keystream, place, &[])?;
    Some(())
}

/// The joined stretch and its pieces, cut anywhere, in order or backwards. Near the end of the
/// keystream the joined one may be refused, and its first pieces not.
fn in_pieces(stage: &mut Stage, keystream: &Keystream) -> Option<()> {
    let length = any_length(&mut stage.dice).max(2);
    let data = any_data(&mut stage.dice, length);
    let over = stage.dice.size(0, length - 1) as u64;
    let (any, last) = (any_start(&mut stage.dice), END - length as u64);
    let start = stage.dice.pick(&[any, any, any, last, last + 1, last + over]);
    let is_joined_first = stage.dice.one_in(2);
    if is_joined_first {
        stage.stretch(keystream, start, &data)?;
    }
    let mut cuts = vec![0, length];
    for _ in 0..stage.dice.between(1, 3) {
        cuts.push(stage.dice.size(0, length));
    }
    cuts.sort_unstable();
    let mut pieces: Vec<(usize, usize)> = cuts.windows(2).map(|cut| (cut[0], cut[1])).collect();
    if stage.dice.one_in(4) {
        pieces.reverse();
    }
    for (from, to) in pieces {
        stage.stretch(keystream, start + from as u64, &data[from..to])?;
    }
    if !is_joined_first {
        stage.stretch(keystream, start, &data)?;
    }
    Some(())
}

/// Starts past the end: just so; where a number cut to fewer bits is small again; where start and
/// length together do not fit 64 bits.
fn past_the_end(stage: &mut Stage, keystream: &Keystream) -> Option<()> {
    let length = any_length(&mut stage.dice);
    let data = any_data(&mut stage.dice, length);
    let (small, near) = (any_start(&mut stage.dice), stage.dice.below(20));
    let cut = stage.dice.pick(&[20, 21, 24, 31, 32, 33, 35, 36, 40, 48, 52, 62, 63]);
    for start in [END + 1 + near, (1 << cut) + small.max(1)] {
        stage.stretch(keystream, start, &data)?;
    }
    // The sum is 2^64, a little more, or as much as it can be; then one less, or far from both ends.
    let least = 0u64.wrapping_sub(length.max(1) as u64);
    let some = stage.dice.below(length.max(1) as u64);
    let wrapping = stage.dice.pick(&[least, least, least + some, u64::MAX]);
    let data = any_data(&mut stage.dice, length.max(1));
    stage.stretch(keystream, wrapping, &data)?;
    let far = stage.dice.pick(&[least - 1, (1 << 32) - 1, 1 << 32, (1 << 63) - 1, 1 << 63]);
    stage.stretch(keystream, far, &data)?;
    let far = stage.dice.pick(&[END + 1, END + 16, 1 << cut.max(21), far, u64::MAX]);
    stage.stretch(keystream, far, &[])?;
    Some(())
}
