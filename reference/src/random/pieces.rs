//! A scene of packets beside their stretches: under each policy and suite, what protect encrypts is
//! given once more piece by piece by the line `stretch`, with the session key and salt or with the
//! header's.

use super::craft::{self, Draft};
use super::dice::Dice;
use super::ends::{self, Ends, Stream};
use super::stage::Stage;
use crate::aes::BLOCK;
use crate::elements;
use crate::keystream::{Keystream, SALT};
use crate::suite::Keys;

/// Ids of both forms, some of them not in `craft`'s blocks.
const LIST: [u8; 8] = [1, 3, 4, 14, 15, 16, 128, 255];

struct Track {
    ends: Ends,
    keys: Keys,
    stream: Stream,
    /// Of the next packet.
    index: u64,
}

/// Bytes of a plain packet and the part of a keystream they are encrypted with.
struct Piece {
    keystream: Keystream,
    start: usize,
    bytes: Vec<u8>,
}

pub fn pieces(stage: &mut Stage) -> Option<()> {
    let mut track = open(stage)?;
    for _ in 0..stage.dice.between(2, 4) {
        let sequence = track.index as u16;
        let draft = long_draft(&mut stage.dice, &track, sequence);
        let answer = track.ends.send_draft(stage, &mut track.stream, draft.clone())?;
        if answer.number != 0 {
            continue;
        }
        for piece in pieces_of(&track, &draft) {
            encrypt(stage, &piece)?;
        }
        track.ends.deliver(stage, answer.packet())?;
        track.index += stage.dice.pick(&[1, 1, 1, 2, 1_000]);
    }
    track.ends.states(stage)
}

fn open(stage: &mut Stage) -> Option<Track> {
    let policy = stage.dice.below(4);
    let suite = ends::suite(&mut stage.dice, &[policy]);
    let (key, salt) = ends::keys(&mut stage.dice, suite);
    let ends = Ends { sender: 0, receiver: 1, suite, policy };
    let (ssrc, rollover) = (stage.dice.number_32(), ends::rollover(&mut stage.dice));
    let first = ends::sequence(&mut stage.dice);
    for (session, way) in [(ends.sender, "s"), (ends.receiver, "r")] {
        stage.make(session, suite, (&key, &salt), policy, &LIST)?;
        stage.add(session, ssrc, way, rollover)?;
    }
    let keys = Keys::derive(suite, &key, &salt).ok()?;
    let stream = Stream { ssrc, last: first.wrapping_sub(1), sent: Vec::new() };
    let index = u64::from(rollover) << 16 | u64::from(first);
    Some(Track { ends, keys, stream, index })
}

/// A packet that this policy takes, with more than one block of payload.
fn long_draft(dice: &mut Dice, track: &Track, sequence: u16) -> Draft {
    let mut draft = craft::good(dice, track.stream.ssrc, sequence, track.ends.policy);
    let further = dice.size(0, 40);
    draft.payload.extend(dice.bytes(further));
    draft
}

/// All that is encrypted of a packet, in its order.
fn pieces_of(track: &Track, draft: &Draft) -> Vec<Piece> {
    let (keystream, begin) = packet_stream(track, draft.ssrc);
    let is_cryptex = track.ends.policy == 1 || track.ends.policy == 2;
    if is_cryptex && (draft.has_extension || draft.takes_added_block(track.ends.policy)) {
        // The extension header between the two uses up no keystream.
        let front = draft.contributors.clone();
        let back = [&draft.block[..], &draft.payload[..]].concat();
        let start = begin + front.len();
        return vec![
            Piece { keystream: keystream.clone(), start: begin, bytes: front },
            Piece { keystream, start, bytes: back },
        ];
    }
    let mut pieces = Vec::new();
    if let (3, Keys::CounterMode(keys)) = (track.ends.policy, &track.keys) {
        pieces = masked_pieces(draft, keys.header_stream(draft.ssrc, u128::from(track.index)));
    }
    pieces.push(Piece { keystream, start: begin, bytes: draft.payload.clone() });
    pieces
}

/// The keystream that the line `stretch` has to be told of, and the byte of it at which a packet's
/// begins. GCM's counter blocks are the IV and 32 bits from 2 on: the same as counter mode's with the
/// IV and two zero bytes for salt, from block 2 on.
fn packet_stream(track: &Track, ssrc: u32) -> (Keystream, usize) {
    let index = u128::from(track.index);
    match &track.keys {
        Keys::CounterMode(keys) => (keys.packet_stream(ssrc, index), 0),
        Keys::Gcm(keys) => {
            let iv = keys.iv(ssrc, index);
            let mut salt = [0; SALT];
            salt[..iv.len()].copy_from_slice(&iv);
            (Keystream { key: keys.key, salt, ssrc: 0, index: 0 }, 2 * BLOCK)
        }
    }
}

/// The data of listed elements, each at its own place of the second keystream.
fn masked_pieces(draft: &Draft, keystream: Keystream) -> Vec<Piece> {
    let mut listed = elements::read(draft.tag, &draft.block).unwrap_or_default();
    listed.retain(|element| LIST.contains(&element.id));
    let piece = |data: std::ops::Range<usize>| Piece {
        keystream: keystream.clone(),
        start: data.start,
        bytes: draft.block[data].to_vec(),
    };
    listed.into_iter().map(|element| piece(element.data)).collect()
}

/// In one stretch or in two, cut anywhere.
fn encrypt(stage: &mut Stage, piece: &Piece) -> Option<()> {
    let cut = match stage.dice.below(3) {
        0 => 0,
        _ => stage.dice.size(0, piece.bytes.len()),
    };
    let (front, back) = piece.bytes.split_at(cut);
    if cut > 0 {
        stage.stretch(&piece.keystream, piece.start as u64, front)?;
    }
    stage.stretch(&piece.keystream, (piece.start + cut) as u64, back)?;
    Some(())
}
