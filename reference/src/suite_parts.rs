//! The parts of answers that `reference count` tells apart for change request 3: both sides of every
//! limit that has the tag's or the salt's length in it, what of a packet was changed before its tag
//! was found wrong, and the suites beside each other.

use crate::aes::BLOCK;
use crate::header::{self, Header, FIXED};
use crate::hex;
use crate::packet;
use crate::parts::Part;
use crate::refusal::Refusal::{Header as Reaching, Keys, Large, Policy, Room, Short, Stream, Tag};
use crate::script::Desk;
use crate::session::{Session, LARGEST};
use crate::suite::Suite::{self, CounterMode, Gcm};
use crate::words;
use std::collections::BTreeMap;

/// KEYS by the other suite's salt, and before POLICY; POLICY by the suite and by the number.
const SHORTER_SALT: Part = ("make", Keys as u64, "salt 12");
const WAS_GCM: Part = ("make", 0, "was gcm");
const LONGER_SALT: Part = ("make gcm", Keys as u64, "salt 14");
const KEYS_BEFORE_POLICY: Part = ("make gcm", Keys as u64, "policy 3");
const MASK_POLICY: Part = ("make gcm", Policy as u64, "policy 3");
const NO_POLICY: Part = ("make gcm", Policy as u64, "policy > 3");
const LAST_POLICY: Part = ("make gcm", 0, "policy 2");
const WAS_NOT_GCM: Part = ("make gcm", 0, "was not gcm");

/// What is authenticated only: all of a header; or a header without its contributors.
const SENT_PLAIN: Part = ("protect gcm", 0, "CC, X in clear");
const SENT_CRYPTEX: Part = ("protect gcm", 0, "CC, X hidden");
const SENT_ADDED: Part = ("protect gcm", 0, "added block");
const SENT_NOTHING: Part = ("protect gcm", 0, "none hidden");
const SENT_BLOCKS: Part = ("protect gcm", 0, "whole blocks");
const SENT_LARGEST: Part = ("protect gcm", 0, "2,048 on wire");
const SENT_ROOM: Part = ("protect gcm", 0, "room for 16");
const SENT_LATER: Part = ("protect gcm", 0, "rollover > 0");
const LARGE_BY_ONE: Part = ("protect gcm", Large as u64, "2,049 on wire");
const LARGE_BY_TAG: Part = ("protect gcm", Large as u64, "fits with 10");
const ROOM_BY_ONE: Part = ("protect gcm", Room as u64, "room for 15");
const ROOM_BY_TAG: Part = ("protect gcm", Room as u64, "room for 10");
const UNMADE_LARGE: Part = ("protect", Stream as u64, "unmade, n 2,033");

const SHORT_BY_ONE: Part = ("unprotect gcm", Short as u64, "n 27");
const HEADER_BY_TAG: Part = ("unprotect gcm", Reaching as u64, "fits with 10");
const LARGER: Part = ("unprotect gcm", Large as u64, "n 2,049");
const TAKEN_SHORT: Part = ("unprotect gcm", 0, "n 28");
const TAKEN_LARGEST: Part = ("unprotect gcm", 0, "n 2,048");
const TAKEN_HEADER: Part = ("unprotect gcm", 0, "header to tag");
const TAKEN_CRYPTEX: Part = ("unprotect gcm", 0, "CC, X hidden");
const TAKEN_CLEAR: Part = ("unprotect gcm", 0, "policy 1 clear");
const TAKEN_LATER: Part = ("unprotect gcm", 0, "rollover > 0");
const OF_FIRST_SUITE: Part = ("unprotect gcm", Tag as u64, "other suite's");
const OF_GCM: Part = ("unprotect", Tag as u64, "other suite's");
const UNMADE_SHORT: Part = ("unprotect", Stream as u64, "unmade, n < 28");

/// The one byte in which a packet that was sent arrived as another one.
const IN_FIXED_HEADER: Part = ("unprotect gcm", Tag as u64, "fixed header");
const IN_CLEAR_CONTRIBUTORS: Part = ("unprotect gcm", Tag as u64, "clear CSRC");
const IN_HIDDEN_CONTRIBUTORS: Part = ("unprotect gcm", Tag as u64, "hidden CSRC");
const IN_EXTENSION_HEADER: Part = ("unprotect gcm", Tag as u64, "ext. header");
const IN_CLEAR_BLOCK: Part = ("unprotect gcm", Tag as u64, "clear block");
const IN_HIDDEN_BLOCK: Part = ("unprotect gcm", Tag as u64, "hidden block");
const IN_PAYLOAD: Part = ("unprotect gcm", Tag as u64, "payload");
const FIRST_TAG_BYTE: Part = ("unprotect gcm", Tag as u64, "first tag byte");
const LAST_TAG_BYTE: Part = ("unprotect gcm", Tag as u64, "last tag byte");

/// In the order of the table.
pub const SUITES: [Part; 42] = [
    WAS_GCM,
    SHORTER_SALT,
    LAST_POLICY,
    WAS_NOT_GCM,
    LONGER_SALT,
    KEYS_BEFORE_POLICY,
    MASK_POLICY,
    NO_POLICY,
    UNMADE_LARGE,
    SENT_PLAIN,
    SENT_CRYPTEX,
    SENT_ADDED,
    SENT_NOTHING,
    SENT_BLOCKS,
    SENT_LARGEST,
    SENT_ROOM,
    SENT_LATER,
    LARGE_BY_ONE,
    LARGE_BY_TAG,
    ROOM_BY_ONE,
    ROOM_BY_TAG,
    UNMADE_SHORT,
    OF_GCM,
    TAKEN_SHORT,
    TAKEN_LARGEST,
    TAKEN_HEADER,
    TAKEN_CRYPTEX,
    TAKEN_CLEAR,
    TAKEN_LATER,
    SHORT_BY_ONE,
    HEADER_BY_TAG,
    LARGER,
    OF_FIRST_SUITE,
    IN_FIXED_HEADER,
    IN_CLEAR_CONTRIBUTORS,
    IN_HIDDEN_CONTRIBUTORS,
    IN_EXTENSION_HEADER,
    IN_CLEAR_BLOCK,
    IN_HIDDEN_BLOCK,
    IN_PAYLOAD,
    FIRST_TAG_BYTE,
    LAST_TAG_BYTE,
];

/// So many packets that were sent are remembered.
const MOST_SENT: usize = 200;

/// What some parts need to know of the lines before.
#[derive(Default)]
pub struct Before {
    /// The suite of every session that was made, by its number.
    made: BTreeMap<usize, Suite>,
    /// The suite and the wire bytes of packets that were sent.
    sent: Vec<(Suite, Vec<u8>)>,
}

/// A packet call: its buffer as it was handed over, its session as the call left it.
struct Call<'a> {
    session: &'a Session,
    n: usize,
    buffer: Vec<u8>,
}

impl<'a> Call<'a> {
    fn read(desk: &'a Desk, words: &[&[u8]]) -> Option<Call<'a>> {
        let [session, n, buffer] = words else {
            return None;
        };
        let n = usize::try_from(words::number(n)?).ok()?;
        Some(Call { session: desk.session(session)?, n, buffer: words::buffer(buffer)? })
    }

    /// The told packet; none where it passes the buffer.
    fn packet(&self) -> &[u8] {
        self.buffer.get(..self.n).unwrap_or(&[])
    }

    /// Of what stands before a tag of this length.
    fn header_before(&self, tag_length: usize) -> Option<Header> {
        let end = self.n.checked_sub(tag_length)?;
        header::read(self.packet().get(..end)?).ok()
    }

    /// Whether the packet's stream has passed the first wrap of its sequence number, or began behind
    /// it.
    fn is_behind_a_wrap(&self) -> bool {
        let ssrc = header::read(self.packet()).ok().map(|header| header.ssrc);
        let mut records = self.session.records().iter();
        let record = records.find(|record| Some(record.ssrc) == ssrc);
        record.and_then(|record| record.ledger.highest()).is_some_and(|highest| highest >= 65_536)
    }
}

impl Before {
    /// The conditions that a line of this kind meets, whatever it was answered with; `number` and
    /// `answer` are looked at for what they leave behind.
    pub fn parts(
        &mut self,
        desk: &Desk,
        (kind, number): (&str, u64),
        words: &[&[u8]],
        answer: &[u8],
    ) -> Option<Vec<Part>> {
        match kind {
            "case" => {
                *self = Before::default();
                None
            }
            "make" | "make gcm" => self.make_parts(desk, number, words),
            "protect" | "protect gcm" => {
                let call = Call::read(desk, words)?;
                if number == 0 {
                    self.remember(call.session.suite(), answer);
                }
                protect_conditions(&call).map(|conditions| holding(&conditions))
            }
            "unprotect" | "unprotect gcm" => {
                let call = Call::read(desk, words)?;
                let mut parts = holding(&unprotect_conditions(&call));
                parts.extend(self.changed_part(&call));
                parts.extend(self.other_suite_part(&call));
                Some(parts)
            }
            _ => None,
        }
    }

    fn make_parts(&mut self, desk: &Desk, number: u64, words: &[&[u8]]) -> Option<Vec<Part>> {
        let [session, key, salt, policy, ..] = words else {
            return None;
        };
        let place = words::session(session)?;
        let was = self.made.remove(&place);
        if number == 0 {
            self.made.insert(place, desk.session(session)?.suite());
        }
        let lengths = (words::key(key)?.len(), words::key(salt)?.len());
        Some(holding(&make_conditions(was, lengths, words::number(policy)?)))
    }

    fn remember(&mut self, suite: Suite, answer: &[u8]) {
        let words: Vec<&[u8]> = answer.split(|byte| *byte == b' ').collect();
        let (Some(length), Some(buffer)) = (words.get(1), words.get(2)) else {
            return;
        };
        let length = words::number(length).and_then(|length| usize::try_from(length).ok());
        let buffer = hex::read(buffer, usize::MAX / 2).unwrap_or_default();
        if let Some(wire) = length.and_then(|length| buffer.get(..length)) {
            self.sent.push((suite, wire.to_vec()));
        }
        if self.sent.len() > MOST_SENT {
            self.sent.remove(0);
        }
    }

    /// The part that the one changed byte of a packet of the second suite belongs to.
    fn changed_part(&self, call: &Call) -> Option<Part> {
        let packet = call.packet();
        let changed_places = |sent: &[u8]| -> Vec<usize> {
            (0..sent.len()).filter(|place| sent[*place] != packet[*place]).collect()
        };
        let of_length =
            |(suite, sent): &&(Suite, Vec<u8>)| *suite == Gcm && sent.len() == packet.len();
        let (sent, place) = self.sent.iter().filter(of_length).find_map(|(_, sent)| {
            match changed_places(sent)[..] {
                [place] => Some((sent, place)),
                _ => None,
            }
        })?;
        let tag = sent.len() - Gcm.tag_length();
        let header = header::read(&sent[..tag]).ok()?;
        place_part(&header, is_hidden(call.session, &header), place, tag, sent.len())
    }

    /// A packet that a session of the other suite sent.
    fn other_suite_part(&self, call: &Call) -> Option<Part> {
        let (suite, _) = self.sent.iter().find(|(_, sent)| sent == call.packet())?;
        match (suite, call.session.suite()) {
            (CounterMode, Gcm) => Some(OF_FIRST_SUITE),
            (Gcm, CounterMode) => Some(OF_GCM),
            _ => None,
        }
    }
}

fn holding(conditions: &[(Part, bool)]) -> Vec<Part> {
    conditions.iter().filter(|(_, holds)| *holds).map(|(part, _)| *part).collect()
}

fn make_conditions(
    was: Option<Suite>,
    (key, salt): (usize, usize),
    policy: u64,
) -> [(Part, bool); 8] {
    [
        (WAS_GCM, was == Some(Gcm)),
        (SHORTER_SALT, key == 16 && salt == 12),
        (LAST_POLICY, policy == 2),
        (WAS_NOT_GCM, was == Some(CounterMode)),
        (LONGER_SALT, key == 16 && salt == 14),
        (KEYS_BEFORE_POLICY, policy == 3),
        (MASK_POLICY, policy == 3),
        (NO_POLICY, policy > 3),
    ]
}

/// Whether the extension of a packet on the wire is Cryptex's, and its contributors so encrypted.
fn is_hidden(session: &Session, header: &Header) -> bool {
    let tag = header.extension.as_ref().map(|extension| extension.tag);
    session.policy().is_cryptex() && tag.is_some_and(packet::is_cryptex_tag)
}

fn protect_conditions(call: &Call) -> Option<[(Part, bool); 13]> {
    let (session, n, room) = (call.session, call.n, call.buffer.len());
    let header = header::read(call.packet()).ok()?;
    let length = |suite: Suite| packet::protected_length(suite, session.policy(), &header, n);
    let is_cryptex = session.policy().is_cryptex();
    let is_full = header.extension.is_some() && !header.contributors.is_empty();
    let added = length(Gcm) - n - Gcm.tag_length();
    // Cryptex leaves the fixed header and the extension header in clear.
    let clear = match header.extension {
        _ if !is_cryptex => header.payload,
        Some(_) => FIXED + header::EXTENSION_HEADER,
        None => FIXED,
    };
    let hidden = n - clear;
    Some([
        (SENT_PLAIN, !is_cryptex && is_full),
        (SENT_CRYPTEX, is_cryptex && is_full),
        (SENT_ADDED, added > 0),
        (SENT_NOTHING, hidden == 0),
        (SENT_BLOCKS, hidden > 0 && hidden % BLOCK == 0),
        (SENT_LARGEST, length(Gcm) == LARGEST),
        (SENT_ROOM, length(Gcm) == room),
        (SENT_LATER, call.is_behind_a_wrap()),
        (LARGE_BY_ONE, length(Gcm) == LARGEST + 1),
        (LARGE_BY_TAG, length(CounterMode) <= LARGEST),
        (ROOM_BY_ONE, length(Gcm) == room + 1),
        (ROOM_BY_TAG, length(CounterMode) == room),
        (UNMADE_LARGE, !session.is_made() && length(Gcm) > LARGEST),
    ])
}

fn unprotect_conditions(call: &Call) -> [(Part, bool); 10] {
    let (session, n) = (call.session, call.n);
    let is_gcm = session.suite() == Gcm;
    // What the call gave back has other tags, so the packet is looked at as it came.
    let header = call.header_before(Gcm.tag_length());
    let has = |condition: &dyn Fn(&Header) -> bool| header.as_ref().is_some_and(condition);
    let is_full = |header: &Header| !header.contributors.is_empty() && header.extension.is_some();
    [
        (SHORT_BY_ONE, n == 27),
        (HEADER_BY_TAG, call.header_before(CounterMode.tag_length()).is_some()),
        (LARGER, n == LARGEST + 1),
        (TAKEN_SHORT, n == 28),
        (TAKEN_LARGEST, n == LARGEST),
        (TAKEN_HEADER, has(&|header| header.payload + Gcm.tag_length() == n && n > 28)),
        (TAKEN_CRYPTEX, has(&|header| is_full(header) && is_hidden(session, header))),
        (
            TAKEN_CLEAR,
            session.policy() == packet::Policy::Cryptex
                && has(&|header| is_full(header) && !is_hidden(session, header)),
        ),
        (TAKEN_LATER, is_gcm && call.is_behind_a_wrap()),
        (UNMADE_SHORT, !session.is_made() && n < 28),
    ]
}

/// The part of the packet that a place belongs to; the tag is from `tag` to `end`.
fn place_part(
    header: &Header,
    is_hidden: bool,
    place: usize,
    tag: usize,
    end: usize,
) -> Option<Part> {
    let extension = header.extension.as_ref();
    let in_block = extension.is_some_and(|extension| extension.block.contains(&place));
    let either = |clear: Part, hidden: Part| if is_hidden { hidden } else { clear };
    Some(if place >= tag {
        // What is between the tag's ends is no part.
        match place {
            place if place == tag => FIRST_TAG_BYTE,
            place if place == end - 1 => LAST_TAG_BYTE,
            _ => return None,
        }
    } else if place < FIXED {
        IN_FIXED_HEADER
    } else if header.contributors.contains(&place) {
        either(IN_CLEAR_CONTRIBUTORS, IN_HIDDEN_CONTRIBUTORS)
    } else if in_block {
        either(IN_CLEAR_BLOCK, IN_HIDDEN_BLOCK)
    } else if place < header.payload {
        IN_EXTENSION_HEADER
    } else {
        IN_PAYLOAD
    })
}
