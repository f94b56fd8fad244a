//! The bytes of a protected packet and their undoing, after document 01, "What is encrypted"
//! (RFC 3711 section 3.1, RFC 9335 sections 5 and 6, RFC 6904 section 3) and, for what the second
//! suite authenticates, RFC 7714 section 8.

use crate::elements::{self, IdSet};
use crate::header::{self, Extension, Header};
use crate::refusal::Refusal;
use crate::suite::{Keys, Name, Suite};

#[derive(Clone, Copy, Debug, PartialEq, Eq)]
pub enum Policy {
    Plain,
    Cryptex,
    CryptexRequired,
    Mask,
}

impl Policy {
    pub fn from_number(number: u64) -> Option<Policy> {
        match number {
            0 => Some(Policy::Plain),
            1 => Some(Policy::Cryptex),
            2 => Some(Policy::CryptexRequired),
            3 => Some(Policy::Mask),
            _ => None,
        }
    }

    pub fn number(self) -> u64 {
        self as u64
    }

    pub fn is_cryptex(self) -> bool {
        matches!(self, Policy::Cryptex | Policy::CryptexRequired)
    }

    /// The mask is for the first suite only.
    pub fn is_for(self, suite: Suite) -> bool {
        self != Policy::Mask || suite == Suite::CounterMode
    }
}

/// What the bytes of one packet depend on beside the packet itself.
pub struct Context<'a> {
    pub keys: &'a Keys,
    pub policy: Policy,
    pub ids: &'a IdSet,
    pub index: i128,
}

impl Context<'_> {
    fn name(&self, header: &Header) -> Name {
        Name { ssrc: header.ssrc, index: self.index.unsigned_abs() }
    }
}

/// Cryptex marks a packet that has contributors and no extension with an added empty block.
fn needs_added_block(policy: Policy, header: &Header) -> bool {
    policy.is_cryptex() && header.extension.is_none() && !header.contributors.is_empty()
}

/// The wire length of a packet of `n` bytes.
pub fn protected_length(suite: Suite, policy: Policy, header: &Header, n: usize) -> usize {
    let added = if needs_added_block(policy, header) { header::EXTENSION_HEADER } else { 0 };
    n + added + suite.tag_length()
}

/// The wire bytes of a plain packet, the tag included. It refuses nothing that the call has not
/// refused before.
pub fn protect(context: &Context, packet: &[u8]) -> Result<Vec<u8>, Refusal> {
    let mut bytes = packet.to_vec();
    let plain = header::read(&bytes)?;
    if needs_added_block(context.policy, &plain) {
        add_empty_block(&mut bytes, &plain);
    }
    if context.policy.is_cryptex() {
        if let Some(extension) = header::read(&bytes)?.extension {
            put_tag(&mut bytes, &extension, cryptex_tag(extension.tag));
        }
    }
    // From here on the clear bytes are those that are sent, and all of them are authenticated.
    let header = header::read(&bytes)?;
    encrypt_masked(context, &header, &mut bytes)?;
    let places = encrypted_places(context.policy, &header, bytes.len());
    let tag = context.keys.seal(context.name(&header), &mut bytes, &places)?;
    bytes.extend(tag);
    Ok(bytes)
}

/// The plain packet of wire bytes and their tag, or TAG. It refuses nothing else that the call has
/// not refused before.
pub fn unprotect(context: &Context, wire: &[u8], tag: &[u8]) -> Result<Vec<u8>, Refusal> {
    let mut bytes = wire.to_vec();
    let header = header::read(&bytes)?;
    let places = encrypted_places(context.policy, &header, bytes.len());
    context.keys.open(context.name(&header), &mut bytes, &places, tag)?;
    encrypt_masked(context, &header, &mut bytes)?;
    if let Some(extension) = cryptex_extension(context.policy, &header) {
        put_tag(&mut bytes, extension, plain_tag(extension.tag));
    }
    Ok(bytes)
}

/// Where the encrypted bytes of a packet with this wire header stand, in the keystream's order: the
/// payload; with Cryptex the contributors, the block and the payload in one run that jumps the four
/// bytes of the extension header.
fn encrypted_places(policy: Policy, header: &Header, length: usize) -> Vec<usize> {
    match cryptex_extension(policy, header) {
        Some(extension) => {
            header.contributors.clone().chain(extension.block.start..length).collect()
        }
        None => (header.payload..length).collect(),
    }
}

/// A packet on the wire is Cryptex's by its tag, and only under policies 1 and 2.
fn cryptex_extension(policy: Policy, header: &Header) -> Option<&Extension> {
    let extension = header.extension.as_ref()?;
    if policy.is_cryptex() && is_cryptex_tag(extension.tag) {
        Some(extension)
    } else {
        None
    }
}

pub fn is_cryptex_tag(tag: u16) -> bool {
    tag == header::CRYPTEX_ONE_BYTE || tag == header::CRYPTEX_TWO_BYTE
}

/// The tags Cryptex can send; 1001 to 100F would lose their low bits.
pub fn has_cryptex_form(tag: u16) -> bool {
    tag == header::ONE_BYTE || tag == header::TWO_BYTE
}

fn cryptex_tag(plain: u16) -> u16 {
    if plain == header::ONE_BYTE {
        header::CRYPTEX_ONE_BYTE
    } else {
        header::CRYPTEX_TWO_BYTE
    }
}

fn plain_tag(cryptex: u16) -> u16 {
    if cryptex == header::CRYPTEX_ONE_BYTE {
        header::ONE_BYTE
    } else {
        header::TWO_BYTE
    }
}

fn put_tag(bytes: &mut [u8], extension: &Extension, tag: u16) {
    bytes[extension.begin..extension.begin + 2].copy_from_slice(&tag.to_be_bytes());
}

/// Raises X and puts BEDE 0000 behind the contributors; `protect` then turns it into C0DE 0000.
fn add_empty_block(bytes: &mut Vec<u8>, header: &Header) {
    bytes[0] |= header::X_BIT;
    let place = header.contributors.end;
    bytes.splice(place..place, [0xbe, 0xde, 0, 0]);
}

/// Under policy 3, XORs block byte k with byte k of the header keystream where the mask is FF. Ids
/// and lengths are never masked, so the mask is the same for plain and wire bytes.
fn encrypt_masked(context: &Context, header: &Header, bytes: &mut [u8]) -> Result<(), Refusal> {
    let (Policy::Mask, Some(extension)) = (context.policy, &header.extension) else {
        return Ok(());
    };
    // No session of the second suite has this policy.
    let Keys::CounterMode(keys) = context.keys else {
        return Err(Refusal::Policy);
    };
    let block = &mut bytes[extension.block.clone()];
    let mask = elements::mask(extension.tag, block, context.ids)?;
    let name = context.name(header);
    let stream = keys.header_stream(name.ssrc, name.index).stretch(0, block.len())?;
    for k in 0..block.len() {
        block[k] ^= stream[k] & mask[k];
    }
    Ok(())
}
