//! Packet indices, after document 01, "Index and record" and the ledger of demand 3 (RFC 3711
//! sections 3.3.1 and 3.3.2): the sender's next index, the receiver's guess, what was accepted.

use crate::refusal::{refuse_if, Refusal};
use std::collections::BTreeSet;

/// 2^48 - 1. Indices are signed and wide here, so that a guess can leave the range and be judged.
pub const LAST: i128 = (1 << 48) - 1;
/// An index this far behind the highest, or further, is old.
pub const WINDOW: i128 = 64;

const SEQUENCES: i128 = 65_536;
const HALF: i128 = 32_768;

/// The index of a record's first packet, either way.
pub fn first(rollover: u32, sequence: u16) -> i128 {
    i128::from(rollover) * SEQUENCES + i128::from(sequence)
}

/// The index after the one sent last: ORDER where the step is not 1 to 32,767, WORN past the end.
pub fn next_sent(last: i128, sequence: u16) -> Result<i128, Refusal> {
    let step = (i128::from(sequence) - last).rem_euclid(SEQUENCES);
    refuse_if(!(1..HALF).contains(&step), Refusal::Order)?;
    refuse_if(last + step > LAST, Refusal::Worn)?;
    Ok(last + step)
}

/// RFC 3711 section 3.3.1 without its wrap: the guess can be below 0 or above `LAST`.
pub fn guess(highest: i128, sequence: u16) -> i128 {
    let sequence = i128::from(sequence);
    let low = highest % SEQUENCES;
    let rollover = highest / SEQUENCES;
    let guessed = if low < HALF && sequence - low > HALF {
        rollover - 1
    } else if low >= HALF && low - HALF > sequence {
        rollover + 1
    } else {
        rollover
    };
    guessed * SEQUENCES + sequence
}

/// Every index ever sent or accepted on one stream. It forgets nothing.
#[derive(Clone, Default)]
pub struct Ledger {
    taken: BTreeSet<i128>,
}

impl Ledger {
    pub fn holding(index: i128) -> Ledger {
        Ledger { taken: BTreeSet::from([index]) }
    }

    pub fn highest(&self) -> Option<i128> {
        self.taken.iter().next_back().copied()
    }

    pub fn take(&mut self, index: i128) {
        self.taken.insert(index);
    }

    /// WORN, OLD or REPEAT for an arriving index. With nothing held there is nothing to be behind.
    pub fn judge(&self, index: i128) -> Result<(), Refusal> {
        refuse_if(index > LAST, Refusal::Worn)?;
        refuse_if(index < 0, Refusal::Old)?;
        let Some(highest) = self.highest() else {
            return Ok(());
        };
        refuse_if(highest - index >= WINDOW, Refusal::Old)?;
        refuse_if(self.taken.contains(&index), Refusal::Repeat)
    }

    /// The indices less than the window behind the highest, as distances below it, smallest first.
    pub fn seen(&self) -> Vec<i128> {
        let Some(highest) = self.highest() else {
            return Vec::new();
        };
        let distances = self.taken.iter().rev().map(|index| highest - index);
        distances.filter(|distance| *distance < WINDOW).collect()
    }
}
