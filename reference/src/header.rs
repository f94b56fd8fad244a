//! Reading an RTP header, after document 01, "Packet layout" (RFC 3550 sections 5.1 and 5.3.1).

use crate::refusal::{refuse_if, Refusal};
use std::ops::Range;

pub const FIXED: usize = 12;
pub const EXTENSION_HEADER: usize = 4;

/// The tags ("defined by profile") that mean something here.
pub const ONE_BYTE: u16 = 0xbede;
pub const TWO_BYTE: u16 = 0x1000;
pub const CRYPTEX_ONE_BYTE: u16 = 0xc0de;
pub const CRYPTEX_TWO_BYTE: u16 = 0xc2de;

/// The X bit within byte 0.
pub const X_BIT: u8 = 0x10;

#[derive(Clone, Debug, PartialEq, Eq)]
pub struct Header {
    pub sequence: u16,
    pub ssrc: u32,
    /// Where the contributors stand; an empty range where CC = 0.
    pub contributors: Range<usize>,
    /// There with X = 1.
    pub extension: Option<Extension>,
    /// Where the payload begins.
    pub payload: usize,
}

#[derive(Clone, Debug, PartialEq, Eq)]
pub struct Extension {
    /// Where the tag stands; the count follows it.
    pub begin: usize,
    pub tag: u16,
    /// The block, without the four bytes of tag and count.
    pub block: Range<usize>,
}

fn number_16(bytes: &[u8], at: usize) -> u16 {
    u16::from_be_bytes([bytes[at], bytes[at + 1]])
}

/// Reads the header of a packet: SHORT, VERSION or HEADER. Of a protected packet `bytes` is only
/// what stands before its tag, so that a header that reaches into the tag is refused.
pub fn read(bytes: &[u8]) -> Result<Header, Refusal> {
    refuse_if(bytes.len() < FIXED, Refusal::Short)?;
    refuse_if(bytes[0] >> 6 != 2, Refusal::Version)?;
    let contributors = FIXED..FIXED + 4 * usize::from(bytes[0] & 0x0f);
    refuse_if(contributors.end > bytes.len(), Refusal::Header)?;
    let extension =
        if bytes[0] & X_BIT == 0 { None } else { Some(read_extension(bytes, contributors.end)?) };
    let payload = match &extension {
        None => contributors.end,
        Some(extension) => extension.block.end,
    };
    Ok(Header {
        sequence: number_16(bytes, 2),
        ssrc: u32::from_be_bytes([bytes[8], bytes[9], bytes[10], bytes[11]]),
        contributors,
        extension,
        payload,
    })
}

/// The count is looked at only once it is known to lie within the packet.
fn read_extension(bytes: &[u8], begin: usize) -> Result<Extension, Refusal> {
    let block_begin = begin + EXTENSION_HEADER;
    refuse_if(block_begin > bytes.len(), Refusal::Header)?;
    let words = usize::from(number_16(bytes, begin + 2));
    let block = block_begin..block_begin + 4 * words;
    refuse_if(block.end > bytes.len(), Refusal::Header)?;
    Ok(Extension { begin, tag: number_16(bytes, begin), block })
}
