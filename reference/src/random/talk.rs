//! Scenes of talks over a lossy network, after demand 3: loss, repetition, order, damage, the
//! window of 64, ties of 32,768, both ends of the rollover's range, ends of unequal policy.

use super::craft;
use super::ends::{self, damaged, with_sequence, Ends, Stream};
use super::stage::Stage;

/// Steps that a sender takes, and some that it must not.
const STEPS: [u16; 14] =
    [1, 1, 1, 2, 3, 63, 64, 65, 16_384, 32_766, 32_767, 32_768, 32_769, 65_535];

fn step(stage: &mut Stage) -> u16 {
    if stage.dice.one_in(20) {
        0
    } else if stage.dice.one_in(5) {
        stage.dice.pick(&STEPS)
    } else {
        1
    }
}

/// Anything may happen, on one to four streams.
pub fn talk(stage: &mut Stage) -> Option<()> {
    let ends = Ends::open(stage)?;
    let mut streams = Vec::new();
    for _ in 0..stage.dice.between(1, 4) {
        let rollover = ends::rollover(&mut stage.dice);
        let first = ends::sequence(&mut stage.dice);
        streams.push(ends.add(stage, rollover, first)?);
    }
    for _ in 0..stage.dice.between(20, 70) {
        let place = stage.dice.size(0, streams.len() - 1);
        talk_once(stage, &ends, &mut streams[place])?;
    }
    ends.states(stage)
}

fn talk_once(stage: &mut Stage, ends: &Ends, stream: &mut Stream) -> Option<()> {
    let chance = stage.dice.below(20);
    let step = step(stage);
    if chance < 9 || stream.sent.is_empty() {
        ends.send(stage, stream, step)?;
    } else if chance < 16 {
        let wire = recent(stage, stream);
        ends.deliver(stage, &wire)?;
    } else if chance < 17 {
        let wire = stage.dice.pick(&stream.sent);
        ends.deliver(stage, &wire)?;
    } else if chance < 19 {
        let wire = recent(stage, stream);
        let wire = damaged(&mut stage.dice, ends.suite, &wire);
        ends.deliver(stage, &wire)?;
    } else {
        rare_once(stage, ends, stream)?;
    }
    Some(())
}

/// One of the last four packets sent, so that most are taken and many come twice.
fn recent(stage: &mut Stage, stream: &Stream) -> Vec<u8> {
    let from = stream.sent.len().saturating_sub(4);
    stage.dice.pick(&stream.sent[from..])
}

/// Calls that a careful caller would not make.
fn rare_once(stage: &mut Stage, ends: &Ends, stream: &mut Stream) -> Option<()> {
    let wire = stage.dice.pick(&stream.sent);
    let n = wire.len() as u64;
    match stage.dice.below(7) {
        // The wrong way round, another session, the same SSRC once more.
        0 => stage.unprotect(ends.sender, n, &wire)?,
        1 => stage.protect(ends.receiver, n, &wire)?,
        2 => {
            let other = stage.dice.below(8);
            stage.unprotect(other, n, &wire)?
        }
        3 => {
            let way = stage.dice.pick(&["s", "r"]);
            let session = stage.dice.pick(&[ends.sender, ends.receiver]);
            stage.add(session, stream.ssrc, way, 0)?
        }
        // Any byte string of the stream, read for an element or told a wrong length.
        4 => stage.find(1, &wire)?,
        5 => {
            let n = stage.dice.pick(&[n - 1, n + 1, 0, 21, 22, 27, 28, u64::MAX]);
            stage.unprotect(ends.receiver, n, &wire)?
        }
        _ => stage.state(ends.receiver)?,
    };
    Some(())
}

/// Many packets are sent, then arrive around both edges of the window.
pub fn window(stage: &mut Stage) -> Option<()> {
    let ends = Ends::open(stage)?;
    let rollover = ends::rollover(&mut stage.dice);
    // Early enough that the packets cross the wrap, or any.
    let any = ends::sequence(&mut stage.dice);
    let first = stage.dice.pick(&[0, 65_490, 65_520, 32_730, any]);
    let mut stream = ends.add(stage, rollover, first)?;
    for _ in 0..stage.dice.between(70, 100) {
        let step = if stage.dice.one_in(30) { stage.dice.pick(&[2, 3, 40]) } else { 1 };
        ends.send_small(stage, &mut stream, step)?;
    }
    let mut highest = stage.dice.size(0, 10);
    for _ in 0..stage.dice.between(40, 90) {
        let place = near(stage, highest);
        if let Some(wire) = stream.sent.get(place) {
            let answer = ends.deliver(stage, wire)?;
            if answer.number == 0 {
                highest = highest.max(place);
            }
        }
        if stage.dice.one_in(20) {
            stage.state(ends.receiver)?;
        }
    }
    ends.states(stage)
}

/// The receiver joins after a wrap the sender has behind it: packets from before the wrap then have
/// indices below the receiver's starting rollover, and nothing forbids them.
pub fn late(stage: &mut Stage) -> Option<()> {
    let policy = stage.dice.below(4);
    let ends = Ends::open_with(stage, policy, policy)?;
    let rollover = stage.dice.pick(&[0, 0, 1, 7, u32::MAX - 1]);
    let ssrc = stage.dice.number_32();
    stage.add(ends.sender, ssrc, "s", rollover)?;
    stage.add(ends.receiver, ssrc, "r", rollover + 1)?;
    let before = stage.dice.between(1, 70) as u16;
    let mut stream = Stream { ssrc, last: 0u16.wrapping_sub(before + 1), sent: Vec::new() };
    for _ in 0..before + stage.dice.between(1, 40) as u16 {
        ends.send_small(stage, &mut stream, 1)?;
    }
    // A packet from before the wrap comes first now and then: its tag is not the expected one.
    for _ in 0..stage.dice.between(10, 30) {
        let Some(newest) = stream.sent.last() else {
            break;
        };
        let wire = stage.dice.pick(&stream.sent);
        let (first, second) = if stage.dice.one_in(4) { (&wire, newest) } else { (newest, &wire) };
        ends.deliver(stage, first)?;
        ends.deliver(stage, second)?;
    }
    ends.states(stage)
}

/// A place relative to the highest arrived: mostly at the window's edges.
fn near(stage: &mut Stage, highest: usize) -> usize {
    let behind = stage.dice.pick(&[0, 1, 2, 5, 30, 61, 62, 63, 64, 65, 66]);
    if stage.dice.one_in(3) {
        highest + stage.dice.pick(&[1, 1, 1, 2, 3, 5, 10, 62, 63, 64, 65])
    } else {
        highest.saturating_sub(behind)
    }
}

/// Long steps: two of them together are just under, at or over 32,768, the first one lost.
pub fn far(stage: &mut Stage) -> Option<()> {
    let ends = Ends::open(stage)?;
    let rollover = ends::rollover(&mut stage.dice);
    let first = ends::sequence(&mut stage.dice);
    let mut stream = ends.add(stage, rollover, first)?;
    ends.send_small(stage, &mut stream, 1)?;
    for _ in 0..stage.dice.between(5, 14) {
        if let Some(wire) = stream.sent.last().cloned() {
            ends.deliver(stage, &wire)?;
        }
        let sum: u64 = stage.dice.pick(&[32_766, 32_767, 32_768, 32_768, 32_769, 40_000]);
        // Both parts are steps a sender may take.
        let part = stage.dice.between(sum.saturating_sub(32_767).max(1), 32_767.min(sum - 1));
        ends.send_small(stage, &mut stream, part as u16)?;
        let wrong = stage.dice.pick(&[0, 32_768, 32_769, 65_535]);
        ends.send_small(stage, &mut stream, wrong)?;
        ends.send_small(stage, &mut stream, (sum - part) as u16)?;
        if stage.dice.one_in(3) && !stream.sent.is_empty() {
            let wire = stage.dice.pick(&stream.sent);
            ends.deliver(stage, &wire)?;
        }
    }
    ends.states(stage)
}

/// Both ends of the index range: the last indices below 2^48, and indices just above 0.
pub fn last(stage: &mut Stage) -> Option<()> {
    let ends = Ends::open(stage)?;
    let rollover = stage.dice.pick(&[0, 0, 0, 1, u32::MAX - 1, u32::MAX, u32::MAX, u32::MAX]);
    let first = if rollover < 2 {
        stage.dice.pick(&[0, 1, 62, 63, 64, 32_766, 32_767, 32_768])
    } else {
        stage.dice.pick(&[65_535, 65_534, 65_530, 65_472, 65_471, 32_769, 32_768, 32_767])
    };
    let mut stream = ends.add(stage, rollover, first)?;
    for _ in 0..stage.dice.between(6, 20) {
        let step = stage.dice.pick(&[1, 1, 1, 2, 5, 60, 64, 32_767, 0, 32_768]);
        ends.send_small(stage, &mut stream, step)?;
        let Some(wire) = stream.sent.last().cloned() else {
            continue;
        };
        if !stage.dice.one_in(4) {
            ends.deliver(stage, &wire)?;
        }
        // A forger reaches for indices past the ends and at the ties.
        let end = stage.dice.pick(&[1, 32_767]);
        let away = stage.dice.pick(&[1, 2, 63, 64, 32_767, 32_768, 32_769, 65_472, 65_473, 65_535]);
        let away = stage.dice.pick(&[end, away, away]);
        let forged = with_sequence(&wire, stream.last.wrapping_add(away));
        ends.deliver(stage, &forged)?;
    }
    ends.states(stage)
}

/// A plain sender's hostile but rightly tagged packets arrive in sessions of all four policies. With
/// the second suite there is none of policy 3, and that session stays unmade.
pub fn cross(stage: &mut Stage) -> Option<()> {
    let policy = stage.dice.pick(&[0, 0, 0, 1, 3]);
    let suite = ends::suite(&mut stage.dice, &[policy]);
    let (key, salt) = ends::keys(&mut stage.dice, suite);
    let set = ends::ids(&mut stage.dice);
    let ssrc = stage.dice.number_32();
    stage.make(7, suite, (&key, &salt), policy, &set)?;
    stage.add(7, ssrc, "s", 0)?;
    for session in 0..4 {
        stage.make(session, suite, (&key, &salt), session, &set)?;
        stage.add(session, ssrc, "r", 0)?;
    }
    let sender = Ends { sender: 7, receiver: 0, suite, policy };
    let mut stream = Stream { ssrc, last: stage.dice.number_16(), sent: Vec::new() };
    for _ in 0..stage.dice.between(5, 14) {
        let mut draft = craft::hostile(&mut stage.dice, ssrc, stream.last.wrapping_add(1));
        draft.version = 2;
        let answer = sender.send_draft(stage, &mut stream, draft)?;
        if answer.number == 0 {
            for receiver in 0..4 {
                Ends { receiver, ..sender }.deliver(stage, answer.packet())?;
            }
        }
    }
    for session in [0, 1, 2, 3, 7] {
        stage.state(session)?;
    }
    Some(())
}
