//! Long header extensions under the mask: the blocks of the random scene `masked` lie against the
//! keystream in every way that was asked for, and the mask follows them byte by byte.

use reference::elements::{self, id_set, Element, IdSet};
use reference::hex;
use reference::keystream::aes_cm;
use reference::random::dice::Dice;
use reference::random::layout;
use reference::refusal::Refusal;
use reference::session::{Session, Way};
use reference::suite::Suite;
use std::collections::BTreeSet;

const ONE_BYTE: u16 = 0xbede;
const TWO_BYTE: u16 = 0x1000;
/// RFC 6904 appendix A: master key and salt, and the header key and salt that come from them.
const MASTER: [&str; 2] = ["e1f97a0d3e018be0d64fa32c06de4139", "0ec675ad498afeebb6960b3aabe6"];
const HEADER: [&str; 2] = ["549752054d6fb708622c4a2e596a1b93", "ab01818174c40d39a3781f7c2d27"];
const SSRC: u32 = 0xcafe_babe;
const LIST: [u8; 7] = [1, 4, 14, 15, 64, 128, 255];

fn bytes(word: &str) -> Vec<u8> {
    hex::read(word.as_bytes(), 16).unwrap()
}

/// Blocks of many lengths, each with its elements.
fn blocks(tag: u16, ids: &IdSet) -> Vec<(Vec<u8>, Vec<Element>)> {
    let mut dice = Dice::new(u64::from(tag));
    let read = |words: usize| {
        let block = layout::block(&mut dice, tag, ids, 4 * words);
        let elements = elements::read(tag, &block).unwrap();
        (block, elements)
    };
    (1..=500).cycle().take(2_500).map(read).collect()
}

#[test]
fn blocks_are_as_long_as_asked() {
    let (ids, mut dice) = (id_set(&LIST), Dice::new(1));
    for length in (1..=60).cycle().take(3_000).chain(1_990..2_020) {
        for tag in [ONE_BYTE, TWO_BYTE, 0x100f] {
            let block = layout::block(&mut dice, tag, &ids, length);
            assert_eq!(block.len(), length);
            assert!(elements::read(tag, &block).is_ok());
            let broken = layout::broken_block(&mut dice, tag, &ids, length.max(2));
            assert_eq!(broken.len(), length.max(2));
            assert_eq!(elements::read(tag, &broken), Err(Refusal::Element));
        }
    }
}

/// Lists that leave no id for one of the two sides do no harm.
#[test]
fn any_list_will_do() {
    for list in [Vec::new(), (0..=255).collect(), vec![200]] {
        let (ids, mut dice) = (id_set(&list), Dice::new(2));
        for tag in [ONE_BYTE, TWO_BYTE] {
            for length in 2..300 {
                assert_eq!(layout::block(&mut dice, tag, &ids, length).len(), length);
                assert_eq!(layout::broken_block(&mut dice, tag, &ids, length).len(), length);
            }
        }
    }
}

/// The data of listed elements begins and ends at every place of a keystream block, in all pairs.
#[test]
fn data_begins_and_ends_everywhere() {
    let ids = id_set(&LIST);
    for tag in [ONE_BYTE, TWO_BYTE] {
        let mut places = BTreeSet::new();
        for (_, elements) in blocks(tag, &ids) {
            let listed = elements.into_iter().filter(|element| ids.contains(&element.id));
            let data = listed.map(|element| element.data).filter(|data| !data.is_empty());
            places.extend(data.map(|data| (data.start % 16, data.end % 16)));
        }
        assert_eq!(places.len(), 256);
    }
}

/// Between listed elements, and before the first, counted up to the next one's first byte or data.
#[test]
fn gaps_have_every_size() {
    let ids = id_set(&LIST);
    for (tag, head) in [(ONE_BYTE, 1), (TWO_BYTE, 2)] {
        let mut gaps = BTreeSet::new();
        for (_, elements) in blocks(tag, &ids) {
            let mut last = 0;
            for element in elements.iter().filter(|element| ids.contains(&element.id)) {
                gaps.extend([element.data.start - last, element.data.start - head - last]);
                last = element.data.end;
            }
        }
        for gap in [0, 1, 15, 16, 17, 31, 32, 33] {
            assert!(gaps.contains(&gap), "{tag:04x} {gap}");
        }
        assert!(gaps.iter().any(|gap| *gap > 500));
    }
}

#[test]
fn elements_are_long_and_empty() {
    let ids = id_set(&LIST);
    let is_listed = |element: &Element| ids.contains(&element.id);
    let mut lengths = BTreeSet::new();
    let mut has_empty_neighbours = false;
    for (_, elements) in blocks(TWO_BYTE, &ids) {
        lengths.extend(elements.iter().filter(|one| is_listed(one)).map(|one| one.data.len()));
        let is_bare = |one: &Element| is_listed(one) && one.data.is_empty();
        has_empty_neighbours |= elements.windows(2).any(|two| {
            is_bare(&two[0]) && is_bare(&two[1]) && two[1].data.start == two[0].data.end + 2
        });
    }
    assert!(has_empty_neighbours);
    for length in [0, 1, 15, 16, 17, 32, 33, 255] {
        assert!(lengths.contains(&length), "{length}");
    }
}

/// Blocks with nothing listed, with the last element alone listed, with very many listed, and with
/// an early end before bytes that read like listed elements.
#[test]
fn blocks_have_every_shape() {
    let ids = id_set(&LIST);
    for tag in [ONE_BYTE, TWO_BYTE] {
        let (mut bare, mut last, mut many, mut padded, mut cut) = (0, 0, 0, 0, 0);
        for (block, elements) in blocks(tag, &ids) {
            let listed = elements.iter().filter(|element| ids.contains(&element.id)).count();
            let end = elements.last().map_or(0, |element| element.data.end);
            let is_last = elements.last().is_some_and(|element| ids.contains(&element.id));
            bare += u32::from(listed == 0 && elements.len() > 2);
            last += u32::from(listed == 1 && elements.len() > 2 && is_last && end == block.len());
            many += u32::from(listed > 20 && block.len() < 200);
            padded += u32::from(block[0] == 0 && end < block.len());
            // The byte that ends the reading, and what would be read without it.
            let behind = block[end..].iter().position(|byte| *byte != 0);
            let behind = behind.map_or(&[][..], |place| &block[end + place + 1..]);
            let unread = elements::read(tag, behind).unwrap();
            cut += u32::from(unread.iter().filter(|one| ids.contains(&one.id)).count() > 1);
        }
        for count in [bare, last, many, padded] {
            assert!(count >= 10, "{tag:04x} {bare} {last} {many} {padded}");
        }
        assert_eq!(cut >= 10, tag == ONE_BYTE);
    }
}

fn session(list: &[u8], way: Way) -> Session {
    let mut session =
        Session::make(Suite::CounterMode, &bytes(MASTER[0]), &bytes(MASTER[1]), 3, list).unwrap();
    session.add(SSRC, way, 0).unwrap();
    session
}

/// A packet of sequence number 7 with this block and five payload bytes; the block begins at 16.
fn packet(tag: u16, block: &[u8]) -> Vec<u8> {
    let mut packet = vec![0x90, 0, 0, 7, 0, 0, 0, 0];
    packet.extend(SSRC.to_be_bytes());
    packet.extend(tag.to_be_bytes());
    packet.extend(((block.len() / 4) as u16).to_be_bytes());
    packet.extend(block);
    packet.extend([1, 2, 3, 4, 5]);
    packet
}

/// Byte k of the header keystream for index 7, out of its own cipher block.
fn key_byte(k: usize) -> u8 {
    let salt = bytes(HEADER[1]).iter().fold(0, |salt, byte| salt << 8 | u128::from(*byte));
    let start = (salt ^ u128::from(SSRC) << 48 ^ 7) << 16;
    let key = bytes(HEADER[0]).try_into().unwrap();
    aes_cm(&key, start + (k / 16) as u128, 16)[k % 16]
}

/// Every byte of data that is listed, and no other, is changed by the key byte of its place. Another
/// list gives back what it does not mask as it came, and masks what came in clear.
#[test]
fn the_mask_follows_the_block() {
    let (ids, mut dice) = (id_set(&LIST), Dice::new(3));
    let other_list = [2, 4, 13, 64, 127, 254, 255];
    for words in (1..=40).chain([100, 250, 500]) {
        for tag in [ONE_BYTE, TWO_BYTE] {
            let block = layout::block(&mut dice, tag, &ids, 4 * words);
            let plain = packet(tag, &block);
            let mut buffer = plain.clone();
            buffer.extend([0; 10]);
            session(&LIST, Way::Sending).protect(&mut buffer, plain.len() as u64).unwrap();
            let (n, mut back) = (buffer.len() as u64, buffer.clone());
            session(&LIST, Way::Receiving).unprotect(&mut back, n).unwrap();
            assert_eq!(back[..plain.len()], plain);
            let mut other = buffer.clone();
            session(&other_list, Way::Receiving).unprotect(&mut other, n).unwrap();
            let elements = elements::read(tag, &block).unwrap();
            for k in 0..block.len() {
                let id = elements.iter().find(|one| one.data.contains(&k)).map_or(0, |one| one.id);
                let key = |list: &[u8]| if list.contains(&id) { key_byte(k) } else { 0 };
                assert_eq!(buffer[16 + k], block[k] ^ key(&LIST), "{tag:04x} {k}");
                assert_eq!(other[16 + k], buffer[16 + k] ^ key(&other_list), "{tag:04x} {k}");
            }
        }
    }
}
