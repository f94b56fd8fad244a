//! Two ends of a talk in a random script: a sender's and a receiver's session with equal keys, and
//! the streams between them, with every packet that was sent.

use super::craft;
use super::dice::Dice;
use super::stage::{Answer, Stage};
use crate::suite::Suite;

pub struct Ends {
    pub sender: u64,
    pub receiver: u64,
    /// Of both ends.
    pub suite: Suite,
    /// Of the sender.
    pub policy: u64,
}

pub struct Stream {
    pub ssrc: u32,
    /// The sequence number sent last, or the one before the first.
    pub last: u16,
    /// The wire bytes of every packet sent.
    pub sent: Vec<Vec<u8>>,
}

/// A master key and a salt of the suite's length.
pub fn keys(dice: &mut Dice, suite: Suite) -> (Vec<u8>, Vec<u8>) {
    (dice.bytes(16), dice.bytes(suite.salt_length()))
}

/// Either suite, where both have these policies.
pub fn suite(dice: &mut Dice, policies: &[u64]) -> Suite {
    let is_for_both = policies.iter().all(|policy| *policy < 3);
    if is_for_both && dice.below(5) < 2 {
        Suite::Gcm
    } else {
        Suite::CounterMode
    }
}

/// Id sets as a caller may write them: empty, with repeats, with 0, with ids no block can hold.
pub fn ids(dice: &mut Dice) -> Vec<u8> {
    match dice.below(6) {
        0 => Vec::new(),
        1 => (1..=14).collect(),
        2 => (0..=255).collect(),
        3 => vec![2, 2, 0, 1, 15, 16, 128, 254, 255],
        _ => {
            let length = dice.size(1, 6);
            dice.bytes(length).iter().map(|id| id % 17).collect()
        }
    }
}

/// Starting rollovers, mostly at the ends of their range.
pub fn rollover(dice: &mut Dice) -> u32 {
    let any = dice.number_32();
    dice.pick(&[0, 0, 0, 0, 1, 2, 65_535, 0x8000_0000, u32::MAX - 1, u32::MAX, any, any])
}

/// Sequence numbers around the places where a guess changes.
pub fn sequence(dice: &mut Dice) -> u16 {
    let any = dice.number_16();
    let base = dice.pick(&[0, 0, 32_768, 65_500, 65_535, any]);
    base.wrapping_add(dice.pick(&[0, 0, 1, 2, 40, 65_535, 65_534]))
}

impl Ends {
    /// Two sessions with equal keys, mostly with equal policy and set.
    pub fn open(stage: &mut Stage) -> Option<Ends> {
        let policy = stage.dice.below(4);
        let other_policy = stage.dice.below(4);
        let is_equal = !stage.dice.one_in(6);
        Ends::open_with(stage, policy, if is_equal { policy } else { other_policy })
    }

    pub fn open_with(stage: &mut Stage, policy: u64, receiver_policy: u64) -> Option<Ends> {
        let suite = suite(&mut stage.dice, &[policy, receiver_policy]);
        Ends::open_as(stage, suite, policy, receiver_policy)
    }

    pub fn open_as(
        stage: &mut Stage,
        suite: Suite,
        policy: u64,
        receiver_policy: u64,
    ) -> Option<Ends> {
        let sender = stage.dice.below(8);
        let receiver = (sender + stage.dice.between(1, 7)) % 8;
        let (key, salt) = keys(&mut stage.dice, suite);
        let set = ids(&mut stage.dice);
        let other_set = if stage.dice.one_in(12) { ids(&mut stage.dice) } else { set.clone() };
        stage.make(sender, suite, (&key, &salt), policy, &set)?;
        stage.make(receiver, suite, (&key, &salt), receiver_policy, &other_set)?;
        Some(Ends { sender, receiver, suite, policy })
    }

    /// Adds a stream at both ends, mostly with equal starting rollover.
    pub fn add(&self, stage: &mut Stage, rollover: u32, first: u16) -> Option<Stream> {
        let any = stage.dice.number_32();
        let ssrc = stage.dice.pick(&[any, any, any, any, 0, u32::MAX]);
        let is_equal = !stage.dice.one_in(15);
        let other = if is_equal { rollover } else { rollover.wrapping_add(1) };
        stage.add(self.sender, ssrc, "s", rollover)?;
        stage.add(self.receiver, ssrc, "r", other)?;
        Some(Stream { ssrc, last: first.wrapping_sub(1), sent: Vec::new() })
    }

    /// Sends a good packet this many sequence numbers further.
    pub fn send(&self, stage: &mut Stage, stream: &mut Stream, step: u16) -> Option<Answer> {
        let sequence = stream.last.wrapping_add(step);
        let draft = craft::good(&mut stage.dice, stream.ssrc, sequence, self.policy);
        self.send_draft(stage, stream, draft)
    }

    /// Sends a small packet, for scenes of many packets.
    pub fn send_small(&self, stage: &mut Stage, stream: &mut Stream, step: u16) -> Option<Answer> {
        let sequence = stream.last.wrapping_add(step);
        let length = stage.dice.size(0, 8);
        let draft = craft::bare(&mut stage.dice, stream.ssrc, sequence, length);
        self.send_draft(stage, stream, draft)
    }

    pub fn send_draft(
        &self,
        stage: &mut Stage,
        stream: &mut Stream,
        draft: craft::Draft,
    ) -> Option<Answer> {
        let mut buffer = draft.bytes();
        let n = buffer.len();
        let needed = draft.protected_length(self.suite, self.policy) - n;
        // Exactly enough room, one byte less, or more.
        let spare = match stage.dice.below(24) {
            0 => needed - 1,
            1..=8 => needed,
            _ => needed + stage.dice.size(1, 12),
        };
        buffer.extend(stage.dice.bytes(spare));
        let answer = stage.protect(self.sender, n as u64, &buffer)?;
        if answer.number == 0 {
            stream.last = draft.sequence;
            stream.sent.push(answer.packet().to_vec());
        }
        Some(answer)
    }

    /// A packet arrives, sometimes with further bytes behind it in the buffer.
    pub fn deliver(&self, stage: &mut Stage, wire: &[u8]) -> Option<Answer> {
        let mut buffer = wire.to_vec();
        if stage.dice.one_in(3) {
            let trailing = stage.dice.size(1, 12);
            buffer.extend(stage.dice.bytes(trailing));
        }
        stage.unprotect(self.receiver, wire.len() as u64, &buffer)
    }

    pub fn states(&self, stage: &mut Stage) -> Option<()> {
        stage.state(self.sender)?;
        stage.state(self.receiver)?;
        Some(())
    }
}

/// A copy with something wrong: a byte, the tag, the length, the sequence number, another SSRC.
pub fn damaged(dice: &mut Dice, suite: Suite, wire: &[u8]) -> Vec<u8> {
    let mut copy = wire.to_vec();
    let length = copy.len();
    let tag_begin = length.saturating_sub(suite.tag_length());
    match dice.below(9) {
        0 | 1 => craft::change_a_byte(dice, &mut copy),
        2 | 7 => craft::change_a_byte(dice, &mut copy[tag_begin..]),
        3 if length >= 12 => craft::change_a_byte(dice, &mut copy[..12]),
        4 => copy.truncate(dice.size(0, length)),
        5 => copy.truncate(length.saturating_sub(1)),
        6 => {
            let further = dice.size(1, 12);
            copy.extend(dice.bytes(further));
        }
        _ => copy = with_sequence(&copy, dice.number_16()),
    }
    copy
}

/// The same bytes under another sequence number, as a forger can send them.
pub fn with_sequence(wire: &[u8], sequence: u16) -> Vec<u8> {
    let mut copy = wire.to_vec();
    if let Some(place) = copy.get_mut(2..4) {
        place.copy_from_slice(&sequence.to_be_bytes());
    }
    copy
}
