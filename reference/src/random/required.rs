//! A scene around policy 2, which requires Cryptex: a plain sender with the right keys, like the box
//! of change request 2, and an honest sender send on one stream. What the plain one sends arrives
//! under all four policies, so that both sides of PROFILE on unprotect are tried.

use super::craft::{self, Draft};
use super::dice::Dice;
use super::ends::{self, with_sequence, Ends, Stream};
use super::stage::Stage;
use crate::suite::Suite;

/// Sessions 0 to 3 receive, each under the policy of its number. With the second suite session 3 stays
/// unmade.
const REQUIRED: u64 = 2;
const HONEST_SENDER: u64 = 5;

/// One stream, as each of its two senders has it.
struct Track {
    suite: Suite,
    plain: Stream,
    honest: Stream,
}

impl Track {
    /// Under policy 0 contributors stay in clear, and no block is added.
    fn plain_ends(&self) -> Ends {
        Ends { sender: 4, receiver: REQUIRED, suite: self.suite, policy: 0 }
    }

    fn honest_ends(&self) -> Ends {
        Ends { sender: HONEST_SENDER, receiver: REQUIRED, suite: self.suite, policy: 2 }
    }
}

/// Each index is sent in clear first, and then properly.
pub fn required(stage: &mut Stage) -> Option<()> {
    let mut track = open(stage)?;
    for _ in 0..stage.dice.between(8, 14) {
        let step = stage.dice.pick(&[1, 1, 1, 1, 2, 63, 64, 65]);
        let sequence = track.plain.last.wrapping_add(step);
        in_clear(stage, &mut track, sequence)?;
        properly(stage, &mut track, sequence)?;
    }
    for session in 0..6 {
        stage.state(session)?;
    }
    Some(())
}

fn open(stage: &mut Stage) -> Option<Track> {
    let suite = ends::suite(&mut stage.dice, &[]);
    let (key, salt) = ends::keys(&mut stage.dice, suite);
    let set = ends::ids(&mut stage.dice);
    let (ssrc, rollover) = (stage.dice.number_32(), ends::rollover(&mut stage.dice));
    let first = ends::sequence(&mut stage.dice);
    for (session, policy, way) in
        [(0, 0, "r"), (1, 1, "r"), (2, 2, "r"), (3, 3, "r"), (4, 0, "s"), (5, 2, "s")]
    {
        stage.make(session, suite, (&key, &salt), policy, &set)?;
        stage.add(session, ssrc, way, rollover)?;
    }
    let stream = || Stream { ssrc, last: first.wrapping_sub(1), sent: Vec::new() };
    Some(Track { suite, plain: stream(), honest: stream() })
}

/// The plain sender's packet arrives with other things wrong too, then sound, then at the other
/// policies.
fn in_clear(stage: &mut Stage, track: &mut Track, sequence: u16) -> Option<()> {
    let draft = plain_draft(&mut stage.dice, track.plain.ssrc, sequence);
    let ends = track.plain_ends();
    let answer = ends.send_draft(stage, &mut track.plain, draft)?;
    if answer.number != 0 {
        return Some(());
    }
    let wire = answer.packet();
    for _ in 0..stage.dice.below(4) {
        let (n, buffer) = spoilt(&mut stage.dice, track.suite.tag_length(), wire);
        let session = stage.dice.pick(&[REQUIRED, REQUIRED, REQUIRED, 0, 1, 3, HONEST_SENDER]);
        stage.unprotect(session, n, &buffer)?;
    }
    ends.deliver(stage, wire)?;
    if stage.dice.one_in(3) {
        stage.state(REQUIRED)?;
    }
    for receiver in [0, 1, 3] {
        if stage.dice.one_in(2) {
            Ends { receiver, ..track.plain_ends() }.deliver(stage, wire)?;
        }
    }
    Some(())
}

/// The honest sender's packet of the same index, which is still free where the one in clear was
/// refused. Then any of those comes again: repeated or old, if nothing else is wrong with it.
fn properly(stage: &mut Stage, track: &mut Track, sequence: u16) -> Option<()> {
    let ends = track.honest_ends();
    let draft = craft::good(&mut stage.dice, track.honest.ssrc, sequence, ends.policy);
    let answer = ends.send_draft(stage, &mut track.honest, draft)?;
    if answer.number == 0 {
        ends.deliver(stage, answer.packet())?;
    }
    if stage.dice.one_in(2) && !track.plain.sent.is_empty() {
        let wire = stage.dice.pick(&track.plain.sent);
        ends.deliver(stage, &wire)?;
    }
    Some(())
}

/// Mostly contributors and no extension; else neither, or an extension that is not encrypted.
fn plain_draft(dice: &mut Dice, ssrc: u32, sequence: u16) -> Draft {
    let most = dice.pick(&[0, 3, 24]);
    let payload = dice.size(0, most);
    let mut draft = craft::bare(dice, ssrc, sequence, payload);
    let other = dice.between(2, 14) as u8;
    let count = dice.pick(&[0, 1, 1, 15, other]);
    draft.set_contributors(dice, count);
    if dice.one_in(5) {
        let tag = dice.pick(&[0xbede, 0x1000]);
        let block = craft::good_block(dice, tag);
        draft.set_block(tag, block);
    }
    draft
}

/// A told length and a buffer: the packet with one more thing wrong, so that the order of the
/// refusals shows.
fn spoilt(dice: &mut Dice, tag_length: usize, wire: &[u8]) -> (u64, Vec<u8>) {
    if dice.one_in(3) {
        return (wrong_length(dice, tag_length, wire), wire.to_vec());
    }
    let copy = wrong_bytes(dice, tag_length, wire);
    (copy.len() as u64, copy)
}

/// LENGTH, SHORT, or around where the contributors end at the tag's start.
fn wrong_length(dice: &mut Dice, tag_length: usize, wire: &[u8]) -> u64 {
    let shortest = 12 + tag_length as u64;
    let least = shortest + 4 * u64::from(wire[0] & 0x0f);
    let short = dice.pick(&[0, 11, 12, shortest - 1]);
    dice.pick(&[wire.len() as u64 + 1, u64::MAX, short, least - 1, least - 1, least, least + 1])
}

/// VERSION, HEADER, LARGE, STREAM, another index, TAG.
fn wrong_bytes(dice: &mut Dice, tag_length: usize, wire: &[u8]) -> Vec<u8> {
    let mut copy = wire.to_vec();
    match dice.below(7) {
        0 => copy[0] ^= dice.pick(&[0x40, 0x80, 0xc0]),
        1 => copy[0] |= 0x0f,
        2 | 3 => copy.resize(dice.pick(&[2_048, 2_049, 2_050]), 0),
        4 => copy[8] ^= 1,
        5 => copy = with_sequence(&copy, dice.number_16()),
        _ => craft::change_a_byte(dice, &mut copy[wire.len() - tag_length..]),
    }
    copy
}
