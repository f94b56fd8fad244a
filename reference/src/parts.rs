//! The parts of some answers that `reference count` tells apart. PROFILE on unprotect is one number
//! for two conditions, under either suite; under the mask, what protect does depends on how the
//! elements lie against the keystream's blocks; and a stretch depends on where it lies in the
//! keystream. `suite_parts` has those of change request 3.

use crate::aes::BLOCK;
use crate::elements;
use crate::header::{self, X_BIT};
use crate::keystream::STREAM_END;
use crate::packet;
use crate::refusal::Refusal::{Large, Profile};
use crate::script::Desk;
use crate::session::Session;
use crate::stretch::Stretch;
use crate::suite::Suite;
use crate::suite_parts::{Before, SUITES};
use crate::words;
use std::collections::BTreeMap;
use std::ops::Range;

/// Some of the lines of this kind that were answered with this number.
pub type Part = (&'static str, u64, &'static str);

/// The two conditions of PROFILE on unprotect, and the other side of the one on contributors.
pub const CONTRIBUTORS_IN_CLEAR: Part = ("unprotect", Profile as u64, "X = 0, CC > 0");
const EXTENSION_IN_CLEAR: Part = ("unprotect", Profile as u64, "X = 1");
const NOTHING_TO_HIDE: Part = ("unprotect", 0, "policy 2, X = 0");
const REQUIRED: [Part; 3] = [NOTHING_TO_HIDE, CONTRIBUTORS_IN_CLEAR, EXTENSION_IN_CLEAR];
const REQUIRED_GCM: [Part; 3] = [
    ("unprotect gcm", 0, NOTHING_TO_HIDE.2),
    ("unprotect gcm", Profile as u64, CONTRIBUTORS_IN_CLEAR.2),
    ("unprotect gcm", Profile as u64, EXTENSION_IN_CLEAR.2),
];

/// Packets sent under policy 3: a listed element's data goes on past a multiple of 16, or begins
/// more than 16 bytes behind the last listed data or the block's begin; a block over 64 bytes.
const MASK_CROSSES: Part = ("protect", 0, "mask crosses 16");
const MASK_SKIPS: Part = ("protect", 0, "mask skips > 16");
const MASK_LONG: Part = ("protect", 0, "mask block > 64");
pub const MASKS: [Part; 3] = [MASK_CROSSES, MASK_SKIPS, MASK_LONG];

/// Stretches on both sides of the keystream's end, and two that a sum or a glance at the bytes alone
/// would take: no bytes behind that end, and an end that does not fit 64 bits.
const ENDS_AT_THE_END: Part = ("stretch", 0, "ends at 2^20");
const ENDS_PAST_THE_END: Part = ("stretch", Large as u64, "ends at 2^20 + 1");
const NOTHING_PAST_THE_END: Part = ("stretch", Large as u64, "length 0");
const END_WRAPS: Part = ("stretch", Large as u64, "end past 64 bits");
/// Begins inside a block and goes on past that block's end; begins inside the block in which the
/// stretch before it ended, and right there.
const OUT_OF_A_BLOCK: Part = ("stretch", 0, "out of a block");
const JOINS_IN_A_BLOCK: Part = ("stretch", 0, "joins in a block");
pub const STRETCHES: [Part; 6] = [
    ENDS_AT_THE_END,
    OUT_OF_A_BLOCK,
    JOINS_IN_A_BLOCK,
    ENDS_PAST_THE_END,
    NOTHING_PAST_THE_END,
    END_WRAPS,
];

/// In the order of the table.
pub fn all() -> impl Iterator<Item = Part> {
    let required = REQUIRED.into_iter().chain(REQUIRED_GCM);
    MASKS.into_iter().chain(required).chain(STRETCHES).chain(SUITES)
}

/// How often each part came.
#[derive(Default)]
pub struct Parts {
    counts: BTreeMap<Part, u64>,
    /// The last line of its kind, if it was taken.
    last_stretch: Option<Stretch>,
    before: Before,
}

impl Parts {
    pub fn count(&self, part: Part) -> u64 {
        self.counts.get(&part).copied().unwrap_or(0)
    }

    /// Counts a line of this kind that was answered with this number.
    pub fn note(&mut self, desk: &Desk, line: &[u8], answer: &[u8], (kind, number): (&str, u64)) {
        let Some(words) = words::split(line) else {
            return;
        };
        let words = &words[1..];
        let mut parts = self.parts(desk, words, kind, number).unwrap_or_default();
        parts.extend(self.before.parts(desk, (kind, number), words, answer).unwrap_or_default());
        for part in parts.into_iter().filter(|part| part.0 == kind && part.1 == number) {
            *self.counts.entry(part).or_default() += 1;
        }
    }

    /// The parts a readable line belongs to, with its bytes as they were handed over. The caller
    /// looks at how it was answered.
    fn parts(
        &mut self,
        desk: &Desk,
        words: &[&[u8]],
        kind: &str,
        number: u64,
    ) -> Option<Vec<Part>> {
        match (kind, words) {
            ("protect", [session, n, buffer]) => {
                let (session, n) = (desk.session(session)?, words::number(n)?);
                mask_parts(session, words::buffer(buffer)?.get(..usize::try_from(n).ok()?)?)
            }
            ("unprotect" | "unprotect gcm", [session, _, buffer]) => {
                required_part(desk.session(session)?, *words::buffer(buffer)?.first()?)
                    .map(|part| vec![part])
            }
            ("stretch", words) => {
                let stretch = Stretch::read(words)?;
                let parts = stretch_parts(self.last_stretch.as_ref(), &stretch);
                self.last_stretch = (number == 0).then_some(stretch);
                Some(parts)
            }
            _ => None,
        }
    }
}

/// What policy 2 has to look at, by the first byte of a packet as it arrived.
fn required_part(session: &Session, first: u8) -> Option<Part> {
    if session.policy() != packet::Policy::CryptexRequired {
        return None;
    }
    let [nothing, contributors, extension] = match session.suite() {
        Suite::CounterMode => REQUIRED,
        Suite::Gcm => REQUIRED_GCM,
    };
    let (has_extension, has_contributors) = (first & X_BIT != 0, first & 0x0f != 0);
    Some(match (has_extension, has_contributors) {
        (true, _) => extension,
        (false, true) => contributors,
        (false, false) => nothing,
    })
}

/// How the mask lies over a packet that was sent. Empty elements have nothing to mask.
fn mask_parts(session: &Session, packet: &[u8]) -> Option<Vec<Part>> {
    if session.policy() != packet::Policy::Mask {
        return None;
    }
    let extension = header::read(packet).ok()?.extension?;
    let block = &packet[extension.block];
    let mut listed = elements::read(extension.tag, block).ok()?;
    listed.retain(|element| session.ids().contains(&element.id) && !element.data.is_empty());
    let data: Vec<Range<usize>> = listed.into_iter().map(|element| element.data).collect();
    let ends = [0].into_iter().chain(data.iter().map(|data| data.end));
    let mut parts = Vec::new();
    if data.iter().any(|data| data.start / BLOCK < (data.end - 1) / BLOCK) {
        parts.push(MASK_CROSSES);
    }
    if data.iter().zip(ends).any(|(data, last)| data.start - last > BLOCK) {
        parts.push(MASK_SKIPS);
    }
    if block.len() > 64 {
        parts.push(MASK_LONG);
    }
    Some(parts)
}

/// Where a stretch lies. Whether it was taken is looked at by the caller, by each part's number.
fn stretch_parts(last: Option<&Stretch>, stretch: &Stretch) -> Vec<Part> {
    let (start, end) = (u128::from(stretch.start), stretch.end());
    let block = BLOCK as u128;
    let is_inside = start % block != 0;
    let is_next = |last: &Stretch| {
        let has_bytes = !last.data.is_empty() && !stretch.data.is_empty();
        has_bytes && last.keystream == stretch.keystream && last.end() == start
    };
    let conditions = [
        (ENDS_AT_THE_END, end == STREAM_END),
        (ENDS_PAST_THE_END, end == STREAM_END + 1),
        (NOTHING_PAST_THE_END, stretch.data.is_empty()),
        (END_WRAPS, end > u128::from(u64::MAX)),
        (OUT_OF_A_BLOCK, is_inside && end > (start / block + 1) * block),
        (JOINS_IN_A_BLOCK, is_inside && last.is_some_and(is_next)),
    ];
    conditions.into_iter().filter(|(_, holds)| *holds).map(|(part, _)| part).collect()
}
