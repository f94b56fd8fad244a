//! Elements of an extension block, after document 01, "Packet layout" (RFC 8285 section 4), the
//! mask of RFC 6904 section 3 and finding one element.

use crate::header;
use crate::refusal::{refuse_if, Refusal};
use std::collections::BTreeSet;
use std::ops::Range;

/// The ids whose elements the mask covers.
pub type IdSet = BTreeSet<u8>;

/// A set from the bytes a caller gives: order and repeats do not matter and a 0 is ignored.
pub fn id_set(ids: &[u8]) -> IdSet {
    ids.iter().copied().filter(|id| *id != 0).collect()
}

/// One element: its id and where its data stands in the block.
#[derive(Clone, Debug, PartialEq, Eq)]
pub struct Element {
    pub id: u8,
    pub data: Range<usize>,
}

/// All elements of a block, in order, or ELEMENT where one runs past the block.
pub fn read(tag: u16, block: &[u8]) -> Result<Vec<Element>, Refusal> {
    match tag {
        header::ONE_BYTE => read_one_byte(block),
        0x1000..=0x100f => read_two_byte(block),
        _ => Ok(Vec::new()),
    }
}

fn read_one_byte(block: &[u8]) -> Result<Vec<Element>, Refusal> {
    let mut elements = Vec::new();
    let mut at = 0;
    while at < block.len() {
        let (id, length) = (block[at] >> 4, usize::from(block[at] & 0x0f));
        if block[at] == 0 {
            at += 1;
            continue;
        }
        // Both ends of the reading, whatever the length says: it is not an element's.
        if id == 15 || id == 0 {
            break;
        }
        let data = at + 1..at + 1 + length + 1;
        refuse_if(data.end > block.len(), Refusal::Element)?;
        at = data.end;
        elements.push(Element { id, data });
    }
    Ok(elements)
}

fn read_two_byte(block: &[u8]) -> Result<Vec<Element>, Refusal> {
    let mut elements = Vec::new();
    let mut at = 0;
    while at < block.len() {
        let id = block[at];
        if id == 0 {
            at += 1;
            continue;
        }
        // The length byte itself can be past the end.
        refuse_if(at + 1 >= block.len(), Refusal::Element)?;
        let data = at + 2..at + 2 + usize::from(block[at + 1]);
        refuse_if(data.end > block.len(), Refusal::Element)?;
        at = data.end;
        elements.push(Element { id, data });
    }
    Ok(elements)
}

/// FF on the data bytes of elements whose id is in the set, 00 elsewhere.
pub fn mask(tag: u16, block: &[u8], ids: &IdSet) -> Result<Vec<u8>, Refusal> {
    let mut mask = vec![0; block.len()];
    for element in read(tag, block)? {
        if ids.contains(&element.id) {
            mask[element.data].fill(0xff);
        }
    }
    Ok(mask)
}

/// Where in a plain packet the data of the first element with this id stands.
pub fn find(id: u8, packet: &[u8]) -> Result<Range<usize>, Refusal> {
    let header = header::read(packet)?;
    let extension = header.extension.ok_or(Refusal::Absent)?;
    let block = &packet[extension.block.clone()];
    // The whole block is read first: a broken element behind the asked one is still ELEMENT.
    let elements = read(extension.tag, block)?;
    let element = elements.into_iter().find(|element| element.id == id);
    let data = element.ok_or(Refusal::Absent)?.data;
    Ok(extension.block.start + data.start..extension.block.start + data.end)
}
