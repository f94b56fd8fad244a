//! SRTP that is proved right, for Rust: plain SRTP (RFC 3711), Cryptex (RFC 9335) and encrypted header extension elements (RFC 6904), in the
//! suite AES_CM_128_HMAC_SHA1_80; all but the last also in AEAD_AES_128_GCM (RFC 7714).
//!
//! A [`Session`] has a key, a policy and a suite, and up to 32 streams, each sent or received. Packets are protected and unprotected in the
//! caller's buffer. A call gives its result or an [`Error`], and an error leaves buffer and session exactly as they were.
//!
//! ```
//! use delugash::{Policy, Session, Suite, Way};
//!
//! // a salt is 12 bytes with this suite, and 14 with Suite::CmHmac
//! let (key, salt) = ([7u8; 16], [9u8; 12]);
//! let mut sender = Session::new(&key, &salt, Policy::Cryptex, &[], Suite::Gcm)?;
//! let mut receiver = Session::new(&key, &salt, Policy::Cryptex, &[], Suite::Gcm)?;
//! sender.add(0xcafebabe, Way::Sending, 0)?;
//! receiver.add(0xcafebabe, Way::Receiving, 0)?;
//!
//! // a packet of 20 bytes, in a buffer with room for what protecting adds
//! let packet = *b"\x80\x60\x00\x01\0\0\0\0\xca\xfe\xba\xbepayload!";
//! let mut buf = [0u8; 20 + delugash::ROOM];
//! buf[..20].copy_from_slice(&packet);
//!
//! let sent = sender.protect(&mut buf, 20)?;
//! let given_back = receiver.unprotect(&mut buf, sent)?;
//! assert_eq!(buf[..given_back], packet);
//! assert_eq!(receiver.unprotect(&mut buf, sent), Err(delugash::Error::Repeat));
//! # Ok::<(), delugash::Error>(())
//! ```

mod border;
mod error;

use std::fmt;

pub use error::Error;

/// The most that protecting adds to a packet: a tag of 16 bytes with GCM, and four where Cryptex adds an empty extension block.
pub const ROOM: usize = 20;

/// How a session treats header extensions and contributors.
#[derive(Clone, Copy, Debug, PartialEq, Eq, Hash)]
pub enum Policy {
    /// Plain SRTP: extensions and contributors are sent in clear.
    Plain = 0,
    /// Cryptex: extension and contributors are encrypted. Plain packets are taken too.
    Cryptex = 1,
    /// Cryptex, and of packets with contributors or an extension none but Cryptex ones are taken.
    CryptexRequired = 2,
    /// The elements with the session's ids are encrypted under the mask of RFC 6904. Not with [`Suite::Gcm`].
    Mask = 3,
}

/// What encrypts and authenticates.
#[derive(Clone, Copy, Debug, PartialEq, Eq, Hash)]
pub enum Suite {
    /// AES_CM_128_HMAC_SHA1_80 (RFC 3711): a master salt of 14 bytes, a tag of 10.
    CmHmac = 0,
    /// AEAD_AES_128_GCM (RFC 7714): a master salt of 12 bytes, a tag of 16.
    Gcm = 1,
}

impl Suite {
    /// The bytes of a master salt.
    pub const fn salt_length(self) -> usize {
        match self {
            Suite::CmHmac => 14,
            Suite::Gcm => 12,
        }
    }

    /// The bytes of a tag: what a protected packet is longer by, but for a block that Cryptex adds.
    pub const fn tag_length(self) -> usize {
        match self {
            Suite::CmHmac => 10,
            Suite::Gcm => 16,
        }
    }
}

/// What a stream of a session is for.
#[derive(Clone, Copy, Debug, PartialEq, Eq, Hash)]
pub enum Way {
    Sending = 0,
    Receiving = 1,
}

/// A session: keys, a policy, a suite, and its streams. It can be moved, cloned, and sent to another thread; but of a session and its clone only one
/// may go on sending ([`Session::new`] says why).
#[derive(Clone)]
pub struct Session {
    words: Vec<u64>,
}

/// Shows that it is a session, and nothing of what is in it: there are keys.
impl fmt::Debug for Session {
    fn fmt(&self, f: &mut fmt::Formatter<'_>) -> fmt::Result {
        f.debug_struct("Session").finish_non_exhaustive()
    }
}

impl Session {
    /// A session without streams, from a master key of 16 bytes and a master salt of [`Suite::salt_length`]: of other lengths they are
    /// [`Error::Keys`]. `ids` are the elements that [`Policy::Mask`] hides; zeros and repeats are ignored. With [`Suite::Gcm`] that policy is
    /// [`Error::Policy`].
    ///
    /// **Under one master key, no SSRC may send two different packets with the same index.** A session sees to this for what it sends itself, and knows
    /// nothing of others. So two sessions of one master key must not both send an SSRC from the same rollover counter: not one at each end, not one after a
    /// restart, not a clone beside the session. Whoever catches two such packets has the XOR of what they encrypt without any key. With [`Suite::Gcm`] he
    /// gets more: the two tags mostly give him the key that authenticates, and packets that he changes, of any stream under that master key, are taken.
    pub fn new(key: &[u8], salt: &[u8], policy: Policy, ids: &[u8], suite: Suite) -> Result<Session, Error> {
        // SAFETY: no arguments.
        let mut words = vec![0u64; unsafe { border::delugash_size() }];
        // SAFETY: each pointer comes with the length of its slice, and no two of them overlap, since `words` is this function's own.
        let number = unsafe {
            border::delugash_make(
                words.as_mut_ptr(),
                words.len(),
                key.as_ptr(),
                key.len(),
                salt.as_ptr(),
                salt.len(),
                policy as u64,
                ids.as_ptr(),
                ids.len(),
                suite as u32,
            )
        };
        Error::check(number).map(|()| Session { words })
    }

    /// Adds a stream. Its first packet has the index `rollover * 65,536 + sequence number`.
    pub fn add(&mut self, ssrc: u32, way: Way, rollover: u32) -> Result<(), Error> {
        // SAFETY: the pointer comes with its length.
        let number =
            unsafe { border::delugash_add(self.words.as_mut_ptr(), self.words.len(), ssrc, way as u32, rollover) };
        Error::check(number)
    }

    /// The packet in the first `n` bytes of the buffer becomes the protected one, whose length is given back; the bytes after it stay.
    pub fn protect(&mut self, buf: &mut [u8], n: usize) -> Result<usize, Error> {
        // SAFETY: each pointer comes with its length; both are borrowed alone, so they do not overlap.
        let answer = unsafe {
            border::delugash_protect(
                self.words.as_mut_ptr(),
                self.words.len(),
                buf.as_mut_ptr(),
                buf.len(),
                n,
            )
        };
        Error::check(answer.number).map(|()| answer.length)
    }

    /// The protected packet in the first `n` bytes of the buffer becomes the packet that was protected, whose length is given back; the tag
    /// and the bytes after it stay. Where Cryptex added an empty extension block, it comes back too, with its X bit.
    pub fn unprotect(&mut self, buf: &mut [u8], n: usize) -> Result<usize, Error> {
        // SAFETY: as in `protect`.
        let answer = unsafe {
            border::delugash_unprotect(
                self.words.as_mut_ptr(),
                self.words.len(),
                buf.as_mut_ptr(),
                buf.len(),
                n,
            )
        };
        Error::check(answer.number).map(|()| answer.length)
    }
}

/// The data of the first element with this id in a plain packet's header extension. An empty element is found as an empty slice.
pub fn find(packet: &[u8], id: u8) -> Result<&[u8], Error> {
    // SAFETY: the pointer comes with its length.
    let part = unsafe { border::delugash_find(packet.as_ptr(), packet.len(), id as u32) };
    Error::check(part.number)?;
    let end = part.begin.saturating_add(part.length);
    packet.get(part.begin..end).ok_or(Error::Absent)
}

/// The keystream alone, for who encrypts a packet's front and back in separate moments: XORs the AES-CM keystream of RFC 3711 (4.1.1) onto the buffer, from byte
/// `start` of it on. The same call decrypts. Two stretches that meet give what the joined one gives, wherever the joined one is not refused. It is the keystream of
/// [`Suite::CmHmac`] alone: a packet under GCM cannot be put together from stretches.
///
/// Key and salt are those that RFC 3711 (4.3) derives for the session, never the master ones that [`Session::new`] takes: their keystream is the session keys. The index is
/// the packet's, rollover counter * 65,536 + sequence number, below 2^48; a larger one gives another SSRC's keystream, so never pass one. `start` is 0 for the first byte that is
/// encrypted: the payload's or, under Cryptex, that of contributors, block and payload. An element under the mask takes RFC 6904's header key and salt, and `start` is the
/// place of its data in the block.
///
/// [`Error::Large`] where start + length is over 2^20; the buffer is as it was then, in clear.
///
/// **Keystream that is used twice gives the audio away.** Whoever catches two buffers that were encrypted with the same bytes of keystream has the XOR of their plain bytes
/// without any key. So under one key and salt, byte k of the keystream of one SSRC and index may never encrypt two different plain bytes: not in another stretch, not in a packet
/// that [`Session::protect`] sends under the same keys, not after a restart, not in another box. And stretches of one packet must not overlap: a byte that gets its keystream
/// twice is in clear again. Nothing here remembers what was used, and nothing is authenticated. Where [`Session::protect`] will do, use that.
pub fn stretch(
    key: &[u8; 16],
    salt: &[u8; 14],
    ssrc: u32,
    index: u64,
    start: u64,
    buf: &mut [u8],
) -> Result<(), Error> {
    // SAFETY: each pointer comes with its length; the buffer is borrowed alone, so it overlaps neither key nor salt.
    let number = unsafe {
        border::delugash_stretch(
            key.as_ptr(),
            key.len(),
            salt.as_ptr(),
            salt.len(),
            ssrc,
            index,
            start,
            buf.as_mut_ptr(),
            buf.len(),
        )
    };
    Error::check(number)
}
