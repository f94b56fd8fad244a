//! A scene of packets under the second suite: what is encrypted, what is only authenticated, and the
//! index in the IV. Every part of a packet is changed on its way; payloads end around whole blocks;
//! packets of equal sequence number are 65,536 apart.

use super::craft::{self, Draft};
use super::dice::Dice;
use super::ends::{self, Ends, Stream};
use super::stage::Stage;
use crate::aes::BLOCK;
use crate::header;
use crate::suite::Suite::Gcm;

/// Two ends, and the one stream between them.
struct Track {
    ends: Ends,
    stream: Stream,
}

/// A plain talk and one of Cryptex.
pub fn sealed(stage: &mut Stage) -> Option<()> {
    let cryptex = stage.dice.between(1, 2);
    for (sender, policy) in [(0, 0), (2, cryptex)] {
        let mut track = open(stage, sender, policy)?;
        changed_on_its_way(stage, &mut track)?;
        around_blocks(stage, &mut track)?;
        if stage.dice.one_in(2) {
            a_rollover_apart(stage, &mut track)?;
        }
        track.ends.states(stage)?;
    }
    Some(())
}

fn open(stage: &mut Stage, sender: u64, policy: u64) -> Option<Track> {
    let (key, salt) = ends::keys(&mut stage.dice, Gcm);
    let ends = Ends { sender, receiver: sender + 1, suite: Gcm, policy };
    let (ssrc, any) = (stage.dice.number_32(), stage.dice.number_32());
    let rollover = stage.dice.pick(&[0, 0, 1, 65_535, 65_536, 1 << 31, u32::MAX - 3, any, any]);
    let first = ends::sequence(&mut stage.dice);
    for (session, way) in [(ends.sender, "s"), (ends.receiver, "r")] {
        stage.make(session, Gcm, (&key, &salt), policy, &[])?;
        stage.add(session, ssrc, way, rollover)?;
    }
    let stream = Stream { ssrc, last: first.wrapping_sub(1), sent: Vec::new() };
    Some(Track { ends, stream })
}

/// A packet that has all parts.
fn whole_draft(dice: &mut Dice, track: &Track) -> Draft {
    let sequence = track.stream.last.wrapping_add(1);
    let payload = dice.size(1, 40);
    let mut draft = craft::bare(dice, track.stream.ssrc, sequence, payload);
    let count = dice.pick(&[1, 2, 3, 4, 5, 15]);
    draft.set_contributors(dice, count);
    let tag = dice.pick(&[0xbede, 0x1000]);
    let words = dice.size(1, 6);
    let block = dice.bytes(4 * words);
    draft.set_block(tag, block);
    draft
}

/// One copy for each part with a byte changed there, then the packet itself, then once more.
fn changed_on_its_way(stage: &mut Stage, track: &mut Track) -> Option<()> {
    let draft = whole_draft(&mut stage.dice, track);
    let answer = track.ends.send_draft(stage, &mut track.stream, draft)?;
    if answer.number != 0 {
        return Some(());
    }
    let wire = answer.packet().to_vec();
    for copy in changed_copies(&mut stage.dice, &wire).unwrap_or_default() {
        track.ends.deliver(stage, &copy)?;
    }
    track.ends.deliver(stage, &wire)?;
    track.ends.deliver(stage, &wire)?;
    Some(())
}

/// The changes are small ones that leave the header readable, so that only the tag can tell. A count
/// of one word less moves bytes between block and payload, and with Cryptex nothing else.
fn changed_copies(dice: &mut Dice, wire: &[u8]) -> Option<Vec<Vec<u8>>> {
    let tag = wire.len().checked_sub(Gcm.tag_length())?;
    let header = header::read(&wire[..tag]).ok()?;
    let extension = header.extension?;
    let mut copies = Vec::new();
    for part in [
        1..2,
        4..8,
        header.contributors,
        extension.block,
        header.payload..tag,
        tag..tag + 1,
        tag + 1..wire.len() - 1,
        wire.len() - 1..wire.len(),
    ] {
        let mut copy = wire.to_vec();
        copy[dice.size(part.start, part.end - 1)] ^= 1 << dice.below(8);
        copies.push(copy);
    }
    let mut other_form = wire.to_vec();
    // C0DE becomes C2DE, and C2DE C0DE.
    other_form[extension.begin] ^= 2;
    let mut other_count = wire.to_vec();
    other_count[extension.begin + 3] -= 1;
    copies.extend([other_form, other_count]);
    Some(copies)
}

/// Packets whose encrypted bytes are none, or end around whole blocks, in any form; they arrive in
/// order, late, twice or never.
fn around_blocks(stage: &mut Stage, track: &mut Track) -> Option<()> {
    let empty = empty_draft(&mut stage.dice, track);
    send_and_deliver(stage, track, empty)?;
    for _ in 0..stage.dice.between(4, 8) {
        let step = stage.dice.pick(&[1, 1, 1, 2, 64, 5_000]);
        let sequence = track.stream.last.wrapping_add(step);
        let mut draft =
            craft::good(&mut stage.dice, track.stream.ssrc, sequence, track.ends.policy);
        let payload = payload_length(&mut stage.dice, &draft);
        draft.payload = stage.dice.bytes(payload);
        send_and_deliver(stage, track, draft)?;
    }
    Some(())
}

/// Nothing to encrypt at all.
fn empty_draft(dice: &mut Dice, track: &Track) -> Draft {
    let sequence = track.stream.last.wrapping_add(1);
    let mut draft = craft::bare(dice, track.stream.ssrc, sequence, 0);
    if dice.one_in(3) {
        draft.set_block(0xbede, Vec::new());
    }
    draft
}

/// None, or so many that payload, or all that Cryptex encrypts, ends at a multiple of 16, or one
/// before or behind it.
fn payload_length(dice: &mut Dice, draft: &Draft) -> usize {
    let before = dice.pick(&[0, draft.contributors.len() + draft.block.len()]);
    let most = if dice.one_in(12) { 100 } else { 5 };
    let end = BLOCK * dice.size(1, most) + dice.pick(&[BLOCK - 1, BLOCK, BLOCK, BLOCK + 1]) - BLOCK;
    let any = dice.size(0, 70);
    dice.pick(&[0, any, end.saturating_sub(before), end.saturating_sub(before)])
}

fn send_and_deliver(stage: &mut Stage, track: &mut Track, draft: Draft) -> Option<()> {
    let answer = track.ends.send_draft(stage, &mut track.stream, draft)?;
    if answer.number == 0 && !stage.dice.one_in(5) {
        track.ends.deliver(stage, answer.packet())?;
    }
    if stage.dice.one_in(4) && !track.stream.sent.is_empty() {
        let wire = stage.dice.pick(&track.stream.sent);
        track.ends.deliver(stage, &wire)?;
    }
    Some(())
}

/// The same packet twice, with equal sequence numbers: the first one's wire bytes are no good in the
/// second one's place, because the index is another.
fn a_rollover_apart(stage: &mut Stage, track: &mut Track) -> Option<()> {
    let draft = whole_draft(&mut stage.dice, track);
    let answer = track.ends.send_draft(stage, &mut track.stream, draft.clone())?;
    if answer.number != 0 {
        return Some(());
    }
    let before = answer.packet().to_vec();
    track.ends.deliver(stage, &before)?;
    for _ in 0..2 {
        let answer = track.ends.send_small(stage, &mut track.stream, 32_767)?;
        if answer.number == 0 {
            track.ends.deliver(stage, answer.packet())?;
        }
    }
    track.ends.deliver(stage, &before)?;
    let answer = track.ends.send_draft(stage, &mut track.stream, draft)?;
    if answer.number == 0 {
        track.ends.deliver(stage, answer.packet())?;
        track.ends.deliver(stage, &before)?;
    }
    Some(())
}
