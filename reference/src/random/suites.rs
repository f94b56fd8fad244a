//! A scene of both suites side by side, after change request 3: makings on both sides of every limit,
//! packets of one suite at a receiver of the other, sessions made again with the other suite. The
//! salts are such that both suites derive the same session key.

use super::craft;
use super::ends::{self, Ends, Stream};
use super::stage::Stage;
use crate::suite::Suite::{self, CounterMode, Gcm};

const GCM: Ends = Ends { sender: 0, receiver: 1, suite: Gcm, policy: 0 };
const COUNTER_MODE: Ends = Ends { sender: 2, receiver: 3, suite: CounterMode, policy: 0 };

/// What all four sessions and their streams have in common.
struct Talk {
    key: Vec<u8>,
    /// The second suite's salt; two zero bytes behind it make it the first one's.
    salt: Vec<u8>,
    policy: u64,
    ssrc: u32,
    rollover: u32,
}

pub fn suites(stage: &mut Stage) -> Option<()> {
    makings(stage)?;
    let talk = open(stage)?;
    let first = ends::sequence(&mut stage.dice);
    let stream = || Stream { ssrc: talk.ssrc, last: first.wrapping_sub(1), sent: Vec::new() };
    let mut streams = [stream(), stream()];
    for _ in 0..stage.dice.between(2, 4) {
        crossed(stage, &talk, &mut streams)?;
    }
    remade(stage, &talk, &streams)?;
    for session in 0..8 {
        stage.state(session)?;
    }
    Some(())
}

/// Salts of both suites' lengths and others, under either suite; policies around 3. Session 4 is made
/// again and again, so it changes its suite or becomes unmade, and takes a stream where it can.
fn makings(stage: &mut Stage) -> Option<()> {
    let any = stage.dice.pick(&[CounterMode, Gcm]);
    let other = stage.dice.pick(&[11, 13, 15, 16, 28, 0]);
    let policy = stage.dice.below(4);
    let far = stage.dice.pick(&[5, 256, 259, 1 << 32, u64::MAX]);
    for (suite, key, salt, policy) in [
        (CounterMode, 16, 14, policy),
        (Gcm, 16, 12, policy % 3),
        (Gcm, 16, 12, 2),
        (Gcm, 16, 12, 3),
        (Gcm, 16, 14, 3),
        (Gcm, 16, 14, policy),
        (Gcm, 16, 12, 4),
        (CounterMode, 16, 12, policy),
        (CounterMode, 16, 14, 3),
        (any, 16, other, policy),
        (any, 15, any.salt_length(), far),
        (any, 16, any.salt_length(), far),
        (CounterMode, 16, 14, policy),
        (Gcm, 16, 12, policy % 3),
        (CounterMode, 16, 14, 4),
    ] {
        if stage.dice.one_in(4) {
            continue;
        }
        let (key, salt) = (stage.dice.bytes(key), stage.dice.bytes(salt));
        let set = ends::ids(&mut stage.dice);
        stage.make(4, suite, (&key, &salt), policy, &set)?;
        if stage.dice.one_in(2) {
            stage.add(4, 7, "s", 0)?;
            stage.state(4)?;
        }
    }
    Some(())
}

fn open(stage: &mut Stage) -> Option<Talk> {
    let (key, salt) = ends::keys(&mut stage.dice, Gcm);
    let (ssrc, rollover) = (stage.dice.number_32(), ends::rollover(&mut stage.dice));
    let talk = Talk { key, salt, policy: stage.dice.below(3), ssrc, rollover };
    for ends in [GCM, COUNTER_MODE] {
        make(stage, &talk, ends.suite, ends.sender, "s")?;
        make(stage, &talk, ends.suite, ends.receiver, "r")?;
    }
    Some(talk)
}

fn make(stage: &mut Stage, talk: &Talk, suite: Suite, session: u64, way: &str) -> Option<()> {
    let mut salt = talk.salt.clone();
    salt.resize(suite.salt_length(), 0);
    stage.make(session, suite, (&talk.key, &salt), talk.policy, &[])?;
    stage.add(session, talk.ssrc, way, talk.rollover)?;
    Some(())
}

/// One packet, sent under both suites. Each arrives at the other's receiver first, where its index is
/// still free, and then at its own.
fn crossed(stage: &mut Stage, talk: &Talk, streams: &mut [Stream; 2]) -> Option<()> {
    let sequence = streams[0].last.wrapping_add(1);
    let draft = craft::good(&mut stage.dice, talk.ssrc, sequence, talk.policy);
    let both = [GCM, COUNTER_MODE].map(|ends| Ends { policy: talk.policy, ..ends });
    let mut wires = Vec::new();
    for (ends, stream) in both.iter().zip(streams) {
        let answer = ends.send_draft(stage, stream, draft.clone())?;
        wires.push(answer.packet().to_vec());
    }
    for (wire, other) in wires.iter().zip(both.iter().rev()) {
        stage.unprotect(other.receiver, wire.len() as u64, wire)?;
    }
    for (wire, ends) in wires.iter().zip(&both) {
        ends.deliver(stage, wire)?;
    }
    Some(())
}

/// Both receivers change their suites. What was refused is taken now, and nothing of the streams that
/// were there is left. Then one becomes unmade, and counts as one of the first suite.
fn remade(stage: &mut Stage, talk: &Talk, streams: &[Stream; 2]) -> Option<()> {
    make(stage, talk, CounterMode, GCM.receiver, "r")?;
    make(stage, talk, Gcm, COUNTER_MODE.receiver, "r")?;
    for (stream, receiver) in [(0, COUNTER_MODE.receiver), (1, GCM.receiver)] {
        for wire in &streams[stream].sent {
            stage.unprotect(receiver, wire.len() as u64, wire)?;
        }
    }
    let (key, salt) = (&talk.key, &talk.salt);
    stage.make(GCM.sender, Gcm, (key, salt), 3, &[])?;
    let mut bare = craft::bare(&mut stage.dice, talk.ssrc, 0, 30).bytes();
    for n in [21, 22, 27, 28] {
        stage.unprotect(GCM.sender, n, &bare)?;
    }
    bare.truncate(28);
    let n = stage.dice.pick(&[12, 13, 18, 19]);
    stage.protect(GCM.sender, n, &bare)?;
    Some(())
}
