//! A scene of long header extensions under policy 3, the mask of RFC 6904: packets whose elements
//! lie in every way against the keystream's blocks arrive at a receiver with the sender's list of
//! ids and, now and then, at one with another list.

use super::craft::{self, Draft};
use super::dice::Dice;
use super::ends::{self, Ends, Stream};
use super::layout;
use super::stage::Stage;
use crate::elements::{self, IdSet};
use crate::header::ONE_BYTE;
use crate::hex;
use crate::suite::Suite;

const EQUAL: Ends = Ends { sender: 0, receiver: 1, suite: Suite::CounterMode, policy: 3 };
/// The receiver with another list.
const OTHER: Ends = Ends { receiver: 2, ..EQUAL };

/// The stream, and the list of ids as the sender has it.
struct Track {
    stream: Stream,
    ids: IdSet,
}

pub fn masked(stage: &mut Stage) -> Option<()> {
    let mut track = open(stage)?;
    for _ in 0..stage.dice.between(15, 30) {
        let draft = long_draft(&mut stage.dice, &track);
        if stage.dice.one_in(4) {
            mask(stage, &track, &draft)?;
        }
        let answer = EQUAL.send_draft(stage, &mut track.stream, draft.clone())?;
        if answer.number == 0 {
            arrive(stage, &track, &draft, answer.packet())?;
        } else {
            arrive_unsent(stage, &draft)?;
        }
    }
    for session in 0..3 {
        stage.state(session)?;
    }
    Some(())
}

fn open(stage: &mut Stage) -> Option<Track> {
    let (key, salt) = ends::keys(&mut stage.dice, EQUAL.suite);
    let (list, another) = (list(&mut stage.dice), list(&mut stage.dice));
    let any = ends::ids(&mut stage.dice);
    let other = stage.dice.pick(&[another, any]);
    let (ssrc, any) = (stage.dice.number_32(), stage.dice.number_32());
    let rollover = stage.dice.pick(&[0, 0, 1, 65_535, u32::MAX - 1, any]);
    let first = ends::sequence(&mut stage.dice);
    for (session, way, list) in [(0, "s", &list), (1, "r", &list), (2, "r", &other)] {
        stage.make(session, EQUAL.suite, (&key, &salt), EQUAL.policy, list)?;
        stage.add(session, ssrc, way, rollover)?;
    }
    let stream = Stream { ssrc, last: first.wrapping_sub(1), sent: Vec::new() };
    Some(Track { stream, ids: elements::id_set(&list) })
}

/// Lists that part neighbours and have some ids of both forms: every other id, ids around powers of
/// two, any half of all.
fn list(dice: &mut Dice) -> Vec<u8> {
    match dice.below(5) {
        0 => (1..=255).step_by(2).collect(),
        1 => (0..=254).rev().step_by(2).chain([2, 64, 14]).collect(),
        2 => vec![1, 8, 14, 15, 64, 128, 255],
        3 => vec![192, 65, 63, 32, 16, 13, 7, 2, 2, 0, 127, 254],
        _ => (0..=255).filter(|_| dice.one_in(2)).collect(),
    }
}

/// A packet with a long block, now and then as long as a packet can be or a little longer.
fn long_draft(dice: &mut Dice, track: &Track) -> Draft {
    let step = dice.pick(&[1, 1, 1, 1, 2, 63, 1_000]);
    let sequence = track.stream.last.wrapping_add(step);
    let payload = dice.size(0, 40);
    let mut draft = craft::bare(dice, track.stream.ssrc, sequence, payload);
    let count = dice.pick(&[0, 0, 1, 2, 3, 15]);
    draft.set_contributors(dice, count);
    let two_byte = 0x1000 + dice.below(16) as u16;
    let tag = dice.pick(&[ONE_BYTE, 0x1000, two_byte]);
    draft.set_block(tag, Vec::new());
    if dice.one_in(8) {
        // 2,038 bytes and a tag of ten are the most.
        let n = dice.pick(&[2_034, 2_035, 2_036, 2_037, 2_038, 2_038, 2_038, 2_039, 2_040]);
        set_longest_block(dice, &mut draft, track, n);
    } else {
        let most = dice.pick(&[1, 3, 8, 16, 16, 24, 40, 40, 120, 475]);
        let length = 4 * dice.size(1, most);
        set_block(dice, &mut draft, track, length);
    }
    draft
}

fn set_block(dice: &mut Dice, draft: &mut Draft, track: &Track, length: usize) {
    let block = if dice.one_in(15) {
        layout::broken_block(dice, draft.tag, &track.ids, length)
    } else {
        layout::block(dice, draft.tag, &track.ids, length)
    };
    draft.set_block(draft.tag, block);
}

/// Makes a packet without a block `n` bytes long; what is left to whole words goes to the payload.
fn set_longest_block(dice: &mut Dice, draft: &mut Draft, track: &Track, n: usize) {
    let left = n - draft.bytes().len();
    set_block(dice, draft, track, left / 4 * 4);
    draft.payload.extend(dice.bytes(left % 4));
}

/// The mask over the packet's block, under the sender's list or any.
fn mask(stage: &mut Stage, track: &Track, draft: &Draft) -> Option<()> {
    let ids = if stage.dice.one_in(3) {
        list(&mut stage.dice)
    } else {
        track.ids.iter().copied().collect()
    };
    let (block, ids) = (hex::write(&draft.block), hex::write(&ids));
    stage.call(format!("mask {:04x} {block} {ids}", draft.tag))?;
    Some(())
}

/// A sent packet arrives with a bit changed, then sound, then once more.
fn arrive(stage: &mut Stage, track: &Track, draft: &Draft, wire: &[u8]) -> Option<()> {
    if stage.dice.one_in(4) {
        let forged = with_changed_bit(&mut stage.dice, track, draft, wire);
        EQUAL.deliver(stage, &forged)?;
    }
    EQUAL.deliver(stage, wire)?;
    if stage.dice.one_in(6) {
        EQUAL.deliver(stage, wire)?;
    }
    if stage.dice.one_in(3) {
        OTHER.deliver(stage, wire)?;
    }
    Some(())
}

/// What could not be sent arrives all the same, with any tag: ELEMENT and LARGE come before TAG.
fn arrive_unsent(stage: &mut Stage, draft: &Draft) -> Option<()> {
    let mut wire = draft.bytes();
    wire.extend(stage.dice.bytes(10));
    EQUAL.deliver(stage, &wire)?;
    Some(())
}

/// Changes a bit of a byte under the mask, or of any byte of the tag where there is none.
fn with_changed_bit(dice: &mut Dice, track: &Track, draft: &Draft, wire: &[u8]) -> Vec<u8> {
    let mask = elements::mask(draft.tag, &draft.block, &track.ids).unwrap_or_default();
    let begin = wire.len() - 10 - draft.payload.len() - draft.block.len();
    let mut places: Vec<usize> =
        (0..mask.len()).filter(|k| mask[*k] == 0xff).map(|k| begin + k).collect();
    if places.is_empty() {
        places.extend(wire.len() - 10..wire.len());
    }
    let mut copy = wire.to_vec();
    copy[dice.pick(&places)] ^= 1 << dice.below(8);
    copy
}
