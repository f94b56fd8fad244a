//! The line `stretch` of the call script, for change request 6: the keystream from any byte on, over
//! data. It needs no session: key and salt are the session key and salt themselves.

use crate::keystream::Keystream;
use crate::refusal::Refusal;
use crate::words;

pub struct Stretch {
    pub keystream: Keystream,
    pub start: u64,
    pub data: Vec<u8>,
}

impl Stretch {
    /// The words behind `stretch`; None where they cannot be read.
    pub fn read(words: &[&[u8]]) -> Option<Stretch> {
        let [key, salt, ssrc, index, start, data] = words else {
            return None;
        };
        let keystream = Keystream {
            key: words::key_of(key)?,
            salt: words::key_of(salt)?,
            ssrc: words::ssrc(ssrc)?,
            index: u128::from(words::index(index)?),
        };
        Some(Stretch { keystream, start: words::number(start)?, data: words::buffer(data)? })
    }

    /// The place behind the last byte. Any start has one, also where it does not fit 64 bits.
    pub fn end(&self) -> u128 {
        u128::from(self.start) + self.data.len() as u128
    }

    /// XORs the data with its stretch of the keystream. A refusal leaves the data as it is.
    pub fn encrypt(&mut self) -> Result<(), Refusal> {
        let stream = self.keystream.stretch(self.start, self.data.len())?;
        for (byte, key_byte) in self.data.iter_mut().zip(stream) {
            *byte ^= key_byte;
        }
        Ok(())
    }
}
