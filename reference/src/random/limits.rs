//! Scenes at the limits of document 01: 2,048 bytes, the buffer's room, the header's end at the
//! packet's end, 32 records. Both sides of each limit are tried.

use super::craft::{self, Draft};
use super::ends::{self, Ends, Stream};
use super::stage::Stage;

/// Numbers for n that a sum would overflow or that lie around the buffer's length.
fn told_length(stage: &mut Stage, length: usize) -> u64 {
    let length = length as u64;
    let near = stage.dice.pick(&[length, length, length + 1, length + 10, length + 16]);
    let wraps = u64::MAX - stage.dice.pick(&[0, 9, 13, 15, 19]);
    stage.dice.pick(&[near, near, near, 1 << 32, 1 << 63, u64::MAX, wraps, wraps])
}

/// Puts a random header form on a packet: contributors or not, a block or not.
fn form(stage: &mut Stage, draft: &mut Draft) {
    let count = stage.dice.pick(&[0, 1, 2, 15]);
    draft.set_contributors(&mut stage.dice, count);
    if stage.dice.one_in(3) {
        let tag = stage.dice.pick(&[0xbede, 0x1000]);
        let block = craft::good_block(&mut stage.dice, tag);
        draft.set_block(tag, block);
    }
}

/// A packet whose protected length is exactly this, or the shortest one of its form.
fn of_protected_length(stage: &mut Stage, ends: &Ends, stream: &Stream, target: usize) -> Draft {
    let sequence = stream.last.wrapping_add(1);
    let mut draft = craft::bare(&mut stage.dice, stream.ssrc, sequence, 0);
    form(stage, &mut draft);
    let payload = target.saturating_sub(draft.protected_length(ends.suite, ends.policy));
    draft.payload = stage.dice.bytes(payload);
    draft
}

fn ends_and_stream(stage: &mut Stage, policy: u64) -> Option<(Ends, Stream)> {
    let ends = Ends::open_with(stage, policy, policy)?;
    let rollover = ends::rollover(&mut stage.dice);
    let first = ends::sequence(&mut stage.dice);
    let stream = ends.add(stage, rollover, first)?;
    Some((ends, stream))
}

/// Protected lengths around 2,048, protected and sent back, under every policy.
pub fn sizes(stage: &mut Stage) -> Option<()> {
    let policy = stage.dice.below(4);
    let (ends, mut stream) = ends_and_stream(stage, policy)?;
    for _ in 0..stage.dice.between(3, 6) {
        let target = stage.dice.pick(&[2_034, 2_044, 2_047, 2_048, 2_048, 2_049, 2_050, 2_052]);
        let draft = of_protected_length(stage, &ends, &stream, target);
        ends.send_draft(stage, &mut stream, draft)?;
    }
    oversized(stage, &ends, &stream)?;
    if let Some(wire) = stream.sent.last() {
        told_more(stage, &ends, wire)?;
    }
    ends.states(stage)
}

/// A hostile packet around the limit: what is wrong with its header comes before LARGE, and LARGE
/// before ROOM and STREAM.
fn oversized(stage: &mut Stage, ends: &Ends, stream: &Stream) -> Option<()> {
    let any = stage.dice.number_32();
    let ssrc = stage.dice.pick(&[stream.ssrc, any]);
    let mut draft = craft::hostile(&mut stage.dice, ssrc, stream.last.wrapping_add(1));
    let payload = stage.dice.size(1_990, 2_050);
    draft.payload = stage.dice.bytes(payload);
    let mut buffer = draft.bytes();
    let n = buffer.len() as u64;
    let room = stage.dice.pick(&[0, 9, 10, 14, 15, 16, 20]);
    buffer.extend(stage.dice.bytes(room));
    stage.protect(ends.sender, n, &buffer)?;
    stage.unprotect(ends.receiver, buffer.len() as u64, &buffer)?;
    Some(())
}

/// A packet told longer than it is: LARGE from 2,049 on, a wrong tag below.
fn told_more(stage: &mut Stage, ends: &Ends, wire: &[u8]) -> Option<()> {
    let mut buffer = wire.to_vec();
    let trailing = stage.dice.pick(&[4_096 - wire.len(), 30]);
    buffer.extend(stage.dice.bytes(trailing));
    let n = stage.dice.pick(&[2_047, 2_048, 2_049, 2_050, buffer.len() as u64]);
    stage.unprotect(ends.receiver, n, &buffer)?;
    stage.unprotect(ends.receiver, wire.len() as u64, &buffer)?;
    // An oversized packet of an unknown stream is LARGE, a shorter one STREAM.
    buffer[8] ^= 1;
    stage.unprotect(ends.receiver, n, &buffer)?;
    stage.protect(ends.sender, n, &buffer)?;
    Some(())
}

/// Buffers of exactly the room needed, one byte less, far more, and lengths past the buffer.
pub fn room(stage: &mut Stage) -> Option<()> {
    let policy = stage.dice.below(4);
    let (ends, mut stream) = ends_and_stream(stage, policy)?;
    for _ in 0..stage.dice.between(6, 14) {
        let target = stage.dice.size(22, 90);
        let draft = of_protected_length(stage, &ends, &stream, target);
        let (mut buffer, needed) = (draft.bytes(), draft.protected_length(ends.suite, policy));
        let n = buffer.len() as u64;
        let most = if stage.dice.one_in(20) { 4_096 } else { needed + 9 };
        let size = stage.dice.pick(&[needed - 1, needed, needed + 1, needed - 4, n as usize, most]);
        buffer.extend(stage.dice.bytes(size.saturating_sub(n as usize)));
        let told = if stage.dice.one_in(4) { told_length(stage, size) } else { n };
        let answer = stage.protect(ends.sender, told, &buffer)?;
        if answer.number == 0 && told == n {
            stream.last = draft.sequence;
            let (n, told) = (answer.length as u64, told_length(stage, answer.buffer.len()));
            stage.unprotect(ends.receiver, told, &answer.buffer)?;
            stage.unprotect(ends.receiver, n, &answer.buffer)?;
        }
    }
    ends.states(stage)
}

/// Headers that end before, at and behind the packet's end, and packets around 12 bytes and 12 bytes
/// and a tag.
pub fn brink(stage: &mut Stage) -> Option<()> {
    let policy = stage.dice.below(4);
    let (ends, mut stream) = ends_and_stream(stage, policy)?;
    for _ in 0..stage.dice.between(8, 16) {
        let sequence = stream.last.wrapping_add(1);
        let mut draft = craft::bare(&mut stage.dice, stream.ssrc, sequence, 0);
        form(stage, &mut draft);
        if stage.dice.one_in(3) {
            // Sent whole: its header ends exactly at the tag.
            let answer = ends.send_draft(stage, &mut stream, draft)?;
            let (mut wire, cut) = (answer.packet().to_vec(), stage.dice.size(0, 2));
            wire.truncate(wire.len().saturating_sub(cut));
            ends.deliver(stage, &wire)?;
        } else {
            try_cut(stage, &ends, &draft.bytes())?;
        }
    }
    ends.states(stage)
}

/// The same bytes, cut or lengthened a little, to protect, to find and, with bytes for a tag, to
/// unprotect.
fn try_cut(stage: &mut Stage, ends: &Ends, packet: &[u8]) -> Option<()> {
    let mut packet = packet.to_vec();
    let cut = stage.dice.pick(&[0, 0, 1, 1, 2, 3, 4, 5, 8]);
    packet.truncate(packet.len().saturating_sub(cut));
    let further = stage.dice.pick(&[0, 0, 0, 1, 2]);
    packet.extend(stage.dice.bytes(further));
    let n = packet.len() as u64;
    match stage.dice.below(3) {
        0 => stage.find(1, &packet)?,
        1 => {
            let mut buffer = packet.clone();
            buffer.extend(stage.dice.bytes(20));
            stage.protect(ends.sender, n, &buffer)?
        }
        _ => {
            packet.extend(stage.dice.bytes(ends.suite.tag_length()));
            stage.unprotect(ends.receiver, packet.len() as u64, &packet)?
        }
    };
    Some(())
}

/// A session with 32 records, its 33rd, and the same SSRC again before and after.
pub fn full(stage: &mut Stage) -> Option<()> {
    let ends = Ends::open(stage)?;
    let base = stage.dice.number_32() & 0xffff_ff00;
    let mut streams = Vec::new();
    let most = stage.dice.pick(&[31, 32, 33, 34, 34]);
    for number in 0..most {
        let ssrc = base + number;
        let rollover = ends::rollover(&mut stage.dice);
        let is_back = stage.dice.one_in(6);
        let ways = if is_back { ["r", "s"] } else { ["s", "r"] };
        stage.add(ends.sender, ssrc, ways[0], rollover)?;
        stage.add(ends.receiver, ssrc, ways[1], rollover)?;
        streams.push(Stream { ssrc, last: ends::sequence(&mut stage.dice), sent: Vec::new() });
        if stage.dice.one_in(12) {
            let (way, known) = (stage.dice.pick(&["s", "r"]), base + stage.dice.number_32() % 40);
            stage.add(ends.sender, known, way, 0)?;
        }
    }
    for _ in 0..stage.dice.between(10, 30) {
        let place = stage.dice.size(0, streams.len() - 1);
        let answer = ends.send(stage, &mut streams[place], 1)?;
        if answer.number == 0 {
            ends.deliver(stage, answer.packet())?;
        }
    }
    let known = base + stage.dice.number_32() % 34;
    stage.add(ends.receiver, known, "r", 1)?;
    ends.states(stage)
}
