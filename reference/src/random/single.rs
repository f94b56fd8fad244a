//! Scenes of single calls: making sessions with good and bad keys, hostile packets to every call,
//! and three calls that need no session (find, guess, mask).

use super::craft;
use super::dice::Dice;
use super::ends;
use super::stage::Stage;
use crate::elements;
use crate::header;
use crate::hex;
use crate::suite::Suite;

/// Makings with keys and policies on both sides of their limits, then calls on what they gave.
pub fn keys(stage: &mut Stage) -> Option<()> {
    let ssrc = stage.dice.number_32();
    for _ in 0..stage.dice.between(6, 14) {
        let session = stage.dice.below(8);
        let key = stage.dice.pick(&[16, 16, 16, 16, 15, 17, 0, 1, 32, 1_024]);
        let suite = stage.dice.pick(&[Suite::CounterMode, Suite::Gcm]);
        let right = suite.salt_length();
        let salt = stage.dice.pick(&[right, right, right, right, 11, 12, 13, 14, 15, 0, 1_024]);
        let policy = stage.dice.pick(&[0, 1, 2, 3, 3, 4, 5, 256, u64::MAX, 1 << 32]);
        let (key, salt) = (stage.dice.bytes(key), stage.dice.bytes(salt));
        let set = ends::ids(&mut stage.dice);
        stage.make(session, suite, (&key, &salt), policy, &set)?;
        let way = stage.dice.pick(&["s", "r"]);
        let rollover = ends::rollover(&mut stage.dice);
        let any = stage.dice.below(8);
        let other = stage.dice.pick(&[session, session, any]);
        stage.add(other, ssrc, way, rollover)?;
        packet_call(stage, other, ssrc)?;
        stage.state(session)?;
    }
    for session in 0..8 {
        stage.state(session)?;
    }
    Some(())
}

/// One packet call with a random packet of this stream, cut, or noise.
fn packet_call(stage: &mut Stage, session: u64, ssrc: u32) -> Option<()> {
    let sequence = ends::sequence(&mut stage.dice);
    let packet = match stage.dice.below(4) {
        0 => craft::good(&mut stage.dice, ssrc, sequence, 0).bytes(),
        1 | 2 => craft::hostile(&mut stage.dice, ssrc, sequence).bytes(),
        _ => noise(&mut stage.dice, ssrc),
    };
    let mut buffer = packet.clone();
    let room = stage.dice.size(0, 22);
    buffer.extend(stage.dice.bytes(room));
    let any = stage.dice.between(0, 30);
    let n = packet.len() as u64;
    let edge = stage.dice.pick(&[11, 12, 21, 22, 27, 28, 27, 28]);
    let n = stage.dice.pick(&[n, n, n, n, buffer.len() as u64, any, edge, edge, u64::MAX]);
    if stage.dice.one_in(2) {
        stage.protect(session, n, &buffer)?;
    } else {
        stage.unprotect(session, n, &buffer)?;
    }
    Some(())
}

/// Random bytes, sometimes with the right version and SSRC.
fn noise(dice: &mut Dice, ssrc: u32) -> Vec<u8> {
    let length = dice.size(0, 50);
    let mut bytes = dice.bytes(length);
    if let (Some(first), true) = (bytes.first_mut(), dice.one_in(2)) {
        *first = *first & 0x3f | 0x80;
    }
    if let (Some(place), true) = (bytes.get_mut(8..12), dice.one_in(2)) {
        place.copy_from_slice(&ssrc.to_be_bytes());
    }
    bytes
}

/// Hostile packets to sessions of every policy and suite that know the stream, one way each.
pub fn hostile(stage: &mut Stage) -> Option<()> {
    let set = ends::ids(&mut stage.dice);
    let ssrc = stage.dice.number_32();
    // Session 4 stays unmade; 5 to 7 are of the second suite, which has policies 0 to 2.
    for session in [0, 1, 2, 3, 5, 6, 7] {
        let suite = if session < 4 { Suite::CounterMode } else { Suite::Gcm };
        let (key, salt) = ends::keys(&mut stage.dice, suite);
        stage.make(session, suite, (&key, &salt), session % 5, &set)?;
        let way = stage.dice.pick(&["s", "s", "r"]);
        stage.add(session, ssrc, way, 0)?;
    }
    for _ in 0..stage.dice.between(15, 40) {
        let session = stage.dice.pick(&[0, 1, 2, 3, 1, 2, 3, 3, 3, 4, 5, 6, 7]);
        let other = stage.dice.number_32();
        let ssrc = stage.dice.pick(&[ssrc, ssrc, ssrc, ssrc, ssrc, other]);
        packet_call(stage, session, ssrc)?;
    }
    for session in 0..8 {
        stage.state(session)?;
    }
    Some(())
}

/// Find, guess and mask.
pub fn single(stage: &mut Stage) -> Option<()> {
    for _ in 0..stage.dice.between(10, 40) {
        match stage.dice.below(3) {
            0 => find(stage)?,
            1 => guess(stage)?,
            _ => mask(stage)?,
        }
    }
    Some(())
}

fn find(stage: &mut Stage) -> Option<()> {
    let (ssrc, sequence) = (stage.dice.number_32(), stage.dice.number_16());
    let mut packet = match stage.dice.below(8) {
        0 => noise(&mut stage.dice, ssrc),
        1..=3 => craft::hostile(&mut stage.dice, ssrc, sequence).bytes(),
        _ => {
            let mut draft = craft::good(&mut stage.dice, ssrc, sequence, 3);
            let tag = stage.dice.pick(&[0xbede, 0x1000, 0x1007]);
            let block = craft::good_block(&mut stage.dice, tag);
            draft.set_block(tag, block);
            draft.bytes()
        }
    };
    if stage.dice.one_in(12) {
        packet.truncate(stage.dice.size(10, 13));
    }
    if stage.dice.one_in(60) {
        let further = 4_096 - packet.len();
        packet.extend(stage.dice.bytes(further));
    }
    let id = id_to_find(&mut stage.dice, &packet);
    stage.find(id, &packet)?;
    Some(())
}

/// Half the time an id that stands in the packet, if it can be read.
fn id_to_find(dice: &mut Dice, packet: &[u8]) -> u64 {
    let any = dice.below(256);
    let any = dice.pick(&[1, 2, 3, 4, 5, 13, 14, 15, 16, 128, 255, 0, any]);
    let Some(extension) = header::read(packet).ok().and_then(|header| header.extension) else {
        return any;
    };
    let elements = elements::read(extension.tag, &packet[extension.block]).unwrap_or_default();
    if elements.is_empty() || dice.one_in(2) {
        return any;
    }
    u64::from(dice.pick(&elements).id)
}

fn guess(stage: &mut Stage) -> Option<()> {
    let any = stage.dice.below(1 << 48);
    let most = u64::from(u32::MAX);
    let rollover = stage.dice.pick(&[0, 0, 1, 2, most - 1, most, most, most, any >> 16]);
    let low = u64::from(ends::sequence(&mut stage.dice));
    let low = stage.dice.pick(&[low, 0, 1, 63, 64, 32_767, 32_768, 32_769, 65_534, 65_535]);
    let away = stage.dice.pick(&[
        0,
        0,
        1,
        2,
        63,
        64,
        65,
        32_766,
        32_767,
        32_768,
        32_769,
        32_770,
        65_471,
        65_472,
        65_473,
        65_474,
        65_535,
        any % 65_536,
    ]);
    let highest = stage.decimal(rollover * 65_536 + low);
    let sequence = stage.decimal((low + away) % 65_536);
    stage.call(format!("guess {highest} {sequence}"))?;
    Some(())
}

fn mask(stage: &mut Stage) -> Option<()> {
    let tag = craft::any_tag(&mut stage.dice);
    let mut block = if stage.dice.one_in(3) {
        craft::hostile_block(&mut stage.dice, tag)
    } else {
        craft::good_block(&mut stage.dice, tag)
    };
    if stage.dice.one_in(40) {
        // A long block: padding before it, up to the limit of the line.
        let padding = stage.dice.size(0, 4_096 - block.len());
        block.splice(0..0, vec![0; padding]);
    }
    let set = ends::ids(&mut stage.dice);
    stage.call(format!("mask {tag:04x} {} {}", hex::write(&block), hex::write(&set)))?;
    Some(())
}
