//! A scene at every limit that has the tag's length in it, after change request 3: SHORT, HEADER,
//! LARGE and ROOM, each on both sides, with either suite's tag and in an unmade session, which counts
//! as one of the first suite.

use super::craft::{self, Draft};
use super::dice::Dice;
use super::ends::{self, Ends, Stream};
use super::stage::Stage;
use crate::suite::Suite::{CounterMode, Gcm};

pub fn edges(stage: &mut Stage) -> Option<()> {
    let suite = stage.dice.pick(&[Gcm, Gcm, Gcm, CounterMode]);
    let policy = stage.dice.below(3);
    let ends = Ends::open_as(stage, suite, policy, policy)?;
    let rollover = stage.dice.pick(&[0, 1, u32::MAX - 1]);
    let first = ends::sequence(&mut stage.dice);
    let mut stream = ends.add(stage, rollover, first)?;
    shortest(stage, &ends, &mut stream)?;
    header_at_the_tag(stage, &ends, &mut stream)?;
    least_room(stage, &ends, &mut stream)?;
    largest(stage, &ends, &mut stream)?;
    unmade(stage, &ends)?;
    as_before(stage, &ends, &stream)?;
    last_index(stage, &ends)?;
    ends.states(stage)
}

fn next_draft(dice: &mut Dice, stream: &Stream, payload: usize) -> Draft {
    craft::bare(dice, stream.ssrc, stream.last.wrapping_add(1), payload)
}

/// Protects a packet in a buffer of this size, and keeps what was sent.
fn protect(
    stage: &mut Stage,
    ends: &Ends,
    stream: &mut Stream,
    draft: &Draft,
    size: usize,
) -> Option<Option<Vec<u8>>> {
    let mut buffer = draft.bytes();
    let n = buffer.len();
    buffer.extend(stage.dice.bytes(size.saturating_sub(n)));
    let answer = stage.protect(ends.sender, n as u64, &buffer)?;
    if answer.number != 0 {
        return Some(None);
    }
    stream.last = draft.sequence;
    Some(Some(answer.packet().to_vec()))
}

/// A packet of 12 bytes and its tag, told shorter: by one, and by as much as the suites' tags differ.
fn shortest(stage: &mut Stage, ends: &Ends, stream: &mut Stream) -> Option<()> {
    let draft = next_draft(&mut stage.dice, stream, 0);
    let size = draft.protected_length(ends.suite, ends.policy);
    let Some(mut wire) = protect(stage, ends, stream, &draft, size)? else {
        return Some(());
    };
    let n = wire.len() as u64;
    wire.extend(stage.dice.bytes(6));
    let other = stage.dice.pick(&[11, 12, 21, 22, 26, 28]);
    for n in [n - 1, other, n, n] {
        stage.unprotect(ends.receiver, n, &wire)?;
    }
    Some(())
}

/// A packet whose header ends at its tag, told shorter: the header then reaches into the tag.
fn header_at_the_tag(stage: &mut Stage, ends: &Ends, stream: &mut Stream) -> Option<()> {
    let mut draft = next_draft(&mut stage.dice, stream, 0);
    let count = stage.dice.pick(&[0, 1, 2, 15]);
    draft.set_contributors(&mut stage.dice, count);
    if count == 0 || stage.dice.one_in(2) {
        let tag = stage.dice.pick(&[0xbede, 0x1000]);
        let words = stage.dice.size(1, 4);
        let block = stage.dice.bytes(4 * words);
        draft.set_block(tag, block);
    }
    let size = draft.protected_length(ends.suite, ends.policy);
    let Some(wire) = protect(stage, ends, stream, &draft, size)? else {
        return Some(());
    };
    let n = wire.len() as u64;
    let less = stage.dice.between(2, 7);
    for n in [n - 1, n - less, n] {
        stage.unprotect(ends.receiver, n, &wire)?;
    }
    Some(())
}

/// Buffers with room for the other suite's tag, one byte less than needed, and exactly enough.
fn least_room(stage: &mut Stage, ends: &Ends, stream: &mut Stream) -> Option<()> {
    let payload = stage.dice.size(0, 40);
    let mut draft = next_draft(&mut stage.dice, stream, payload);
    let count = stage.dice.pick(&[0, 1, 3]);
    draft.set_contributors(&mut stage.dice, count);
    let needed = draft.protected_length(ends.suite, ends.policy);
    let further = stage.dice.between(1, 5) as usize;
    for size in [needed - 6, needed - further, needed - 1, needed, needed] {
        if let Some(wire) = protect(stage, ends, stream, &draft, size)? {
            ends.deliver(stage, &wire)?;
        }
    }
    Some(())
}

/// Protected lengths of 2,048 and more, in buffers of exactly that room; the longest arrives, and is
/// then told longer.
fn largest(stage: &mut Stage, ends: &Ends, stream: &mut Stream) -> Option<()> {
    let other = stage.dice.pick(&[2_042, 2_047, 2_050, 2_054]);
    let further = stage.dice.size(2_050, 2_054);
    for target in [further, 2_049, 2_048, other] {
        let mut draft = next_draft(&mut stage.dice, stream, 0);
        let count = stage.dice.pick(&[0, 1, 15]);
        draft.set_contributors(&mut stage.dice, count);
        if stage.dice.one_in(3) {
            let block = craft::good_block(&mut stage.dice, 0xbede);
            draft.set_block(0xbede, block);
        }
        let payload = target - draft.protected_length(ends.suite, ends.policy);
        draft.payload = stage.dice.bytes(payload);
        if let Some(mut wire) = protect(stage, ends, stream, &draft, target)? {
            let n = wire.len() as u64;
            wire.resize(2_060, 0);
            stage.unprotect(ends.receiver, 2_049, &wire)?;
            stage.unprotect(ends.receiver, n, &wire)?;
        }
    }
    Some(())
}

/// The same limits with ten bytes for a tag, in a session that never was made or whose making was
/// refused; on the right side of all of them is STREAM.
fn unmade(stage: &mut Stage, ends: &Ends) -> Option<()> {
    let session = (0..8).find(|session| ![ends.sender, ends.receiver].contains(session))?;
    if stage.dice.one_in(2) {
        let (key, salt) = ends::keys(&mut stage.dice, Gcm);
        stage.make(session, Gcm, (&key, &salt), 3, &[])?;
    }
    let ssrc = stage.dice.number_32();
    let mut draft = craft::bare(&mut stage.dice, ssrc, 1, 20);
    let between = stage.dice.between(23, 27);
    for n in [21, 22, between] {
        stage.unprotect(session, n, &draft.bytes())?;
    }
    // One contributor ends at 16, ten bytes before 26.
    draft.set_contributors(&mut stage.dice, 1);
    let n = stage.dice.pick(&[25, 26, 27, 31]);
    stage.unprotect(session, n, &draft.bytes())?;
    let n = stage.dice.size(2_033, 2_038);
    draft.payload = stage.dice.bytes(n - 16);
    for (n, size) in [(n, n + 10), (n, n + 9), (2_039, 2_049)] {
        let mut buffer = draft.bytes();
        buffer.resize(size, 0);
        stage.protect(session, n as u64, &buffer)?;
    }
    Some(())
}

/// What has no tag's length in it is refused as ever, with exactly enough room and with less: another
/// stream, another version, a stream that is there already.
fn as_before(stage: &mut Stage, ends: &Ends, stream: &Stream) -> Option<()> {
    let payload = stage.dice.size(0, 20);
    let mut draft = next_draft(&mut stage.dice, stream, payload);
    draft.ssrc ^= 1;
    let n = draft.bytes().len();
    let size = draft.protected_length(ends.suite, ends.policy);
    for (version, size) in [(2, size), (2, size - 1), (1, size - 1)] {
        draft.version = version;
        let mut buffer = draft.bytes();
        buffer.resize(size, 0);
        stage.protect(ends.sender, n as u64, &buffer)?;
        stage.unprotect(ends.receiver, size as u64, &buffer)?;
    }
    stage.add(ends.sender, stream.ssrc, "s", 0)?;
    Some(())
}

/// A stream at the end of its index range: its last packet, and what would come behind it.
fn last_index(stage: &mut Stage, ends: &Ends) -> Option<()> {
    let first = stage.dice.pick(&[65_535, 65_535, 65_534]);
    let mut stream = ends.add(stage, u32::MAX, first)?;
    for _ in 0..2 {
        let answer = ends.send_small(stage, &mut stream, 1)?;
        if answer.number == 0 {
            ends.deliver(stage, answer.packet())?;
        }
    }
    if let Some(wire) = stream.sent.last() {
        let sequence = stage.dice.pick(&[0, 0, 1, 32_766, 32_767]);
        ends.deliver(stage, &ends::with_sequence(wire, sequence))?;
    }
    Some(())
}
