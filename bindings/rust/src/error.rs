//! The refusals of document 01, to which document 02 adds conditions, as an error.

use std::fmt;

/// Why a call was refused. A refusal changes nothing. Where several apply, the one with the smallest number is given.
#[derive(Clone, Copy, Debug, PartialEq, Eq, Hash)]
#[non_exhaustive]
pub enum Error {
    /// 1: n is more than the buffer's length.
    Length,
    /// 2: the packet is shorter than its fixed header (to unprotect: than that and the tag).
    Short,
    /// 3: the packet's version is not 2.
    Version,
    /// 4: contributors, extension header or its block pass the packet's end.
    Header,
    /// 5: to protect, an extension that Cryptex cannot carry; to unprotect under [`Policy::CryptexRequired`](crate::Policy): contributors or an extension in clear.
    Profile,
    /// 6: an element of the header extension runs past its block.
    Element,
    /// 7: the protected packet is over 2,048 bytes; of a stretch: start + length is over 2^20.
    Large,
    /// 8: the buffer has no room for the protected packet.
    Room,
    /// 9: the session has no stream with this SSRC and this way.
    Stream,
    /// 10: the sequence number is not 1 to 32,767 after the last one sent.
    Order,
    /// 11: the packet's index would pass 2^48 - 1: the stream needs a new key.
    Worn,
    /// 12: the packet is 64 or more behind the highest accepted, or its index is below 0.
    Old,
    /// 13: the packet was given back before.
    Repeat,
    /// 14: the authentication tag is wrong.
    Tag,
    /// 15: the master key is not 16 bytes or the salt not as long as the suite's; to add: the session is not made.
    Keys,
    /// 16: the suite has no such policy: [`Policy::Mask`](crate::Policy) with [`Suite::Gcm`](crate::Suite).
    Policy,
    /// 17: the SSRC is in the session already, either way.
    Twice,
    /// 18: the session has 32 streams.
    Full,
    /// 19: the packet has no such element.
    Absent,
    /// A number that this crate does not know: the library is another version.
    Other(u32),
}

const LISTED: [Error; 19] = [
    Error::Length,
    Error::Short,
    Error::Version,
    Error::Header,
    Error::Profile,
    Error::Element,
    Error::Large,
    Error::Room,
    Error::Stream,
    Error::Order,
    Error::Worn,
    Error::Old,
    Error::Repeat,
    Error::Tag,
    Error::Keys,
    Error::Policy,
    Error::Twice,
    Error::Full,
    Error::Absent,
];

impl Error {
    /// `Ok` for 0, and the refusal of any other number.
    pub(crate) fn check(number: u32) -> Result<(), Error> {
        match number {
            0 => Ok(()),
            n => Err(LISTED.get(n as usize - 1).copied().unwrap_or(Error::Other(n))),
        }
    }

    /// The number of document 01.
    pub fn number(self) -> u32 {
        match self {
            Error::Other(n) => n,
            known => LISTED.iter().position(|e| *e == known).map_or(0, |k| k as u32 + 1),
        }
    }
}

impl fmt::Display for Error {
    fn fmt(&self, f: &mut fmt::Formatter<'_>) -> fmt::Result {
        write!(f, "refused with {} ({:?})", self.number(), self)
    }
}

impl std::error::Error for Error {}
