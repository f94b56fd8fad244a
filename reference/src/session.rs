//! Sessions and their calls (make, add, protect, unprotect), after document 01, "The library's
//! work" and "Numbers given back". Every call checks in the order of the refusals' numbers.

use crate::elements::{self, IdSet};
use crate::header::{self, Header};
use crate::index::{self, Ledger};
use crate::packet::{self, Context, Policy};
use crate::refusal::{refuse_if, Refusal};
use crate::suite::{Keys, Suite};

pub const MOST_RECORDS: usize = 32;
/// The longest protected packet.
pub const LARGEST: usize = 2_048;

#[derive(Clone, Copy, Debug, PartialEq, Eq)]
pub enum Way {
    Sending,
    Receiving,
}

#[derive(Clone)]
pub struct Record {
    pub ssrc: u32,
    pub way: Way,
    pub rollover: u32,
    pub ledger: Ledger,
}

#[derive(Clone)]
pub struct Session {
    /// None for the unmade session.
    keys: Option<Keys>,
    policy: Policy,
    ids: IdSet,
    records: Vec<Record>,
}

impl Session {
    /// The one session that a refused making gives.
    pub fn unmade() -> Session {
        Session { keys: None, policy: Policy::Plain, ids: IdSet::new(), records: Vec::new() }
    }

    pub fn make(
        suite: Suite,
        key: &[u8],
        salt: &[u8],
        policy: u64,
        ids: &[u8],
    ) -> Result<Session, Refusal> {
        let keys = Keys::derive(suite, key, salt)?;
        let policy = Policy::from_number(policy).filter(|policy| policy.is_for(suite));
        let policy = policy.ok_or(Refusal::Policy)?;
        let ids = elements::id_set(ids);
        Ok(Session { keys: Some(keys), policy, ids, records: Vec::new() })
    }

    pub fn is_made(&self) -> bool {
        self.keys.is_some()
    }

    /// The unmade session counts as one of the first suite.
    pub fn suite(&self) -> Suite {
        self.keys.as_ref().map_or(Suite::CounterMode, Keys::suite)
    }

    pub fn policy(&self) -> Policy {
        self.policy
    }

    pub fn ids(&self) -> &IdSet {
        &self.ids
    }

    /// In the order they were added.
    pub fn records(&self) -> &[Record] {
        &self.records
    }

    pub fn add(&mut self, ssrc: u32, way: Way, rollover: u32) -> Result<(), Refusal> {
        refuse_if(!self.is_made(), Refusal::Keys)?;
        refuse_if(self.records.iter().any(|record| record.ssrc == ssrc), Refusal::Twice)?;
        refuse_if(self.records.len() >= MOST_RECORDS, Refusal::Full)?;
        self.records.push(Record { ssrc, way, rollover, ledger: Ledger::default() });
        Ok(())
    }

    /// Protects the first `n` bytes of the buffer in place and gives the wire length.
    pub fn protect(&mut self, buffer: &mut [u8], n: u64) -> Result<usize, Refusal> {
        let packet = told_packet(buffer, n, header::FIXED)?;
        let header = header::read(packet)?;
        refuse_if(self.is_wrong_profile_to_send(&header), Refusal::Profile)?;
        self.check_elements(&header, packet)?;
        let wire_length =
            packet::protected_length(self.suite(), self.policy, &header, packet.len());
        refuse_if(wire_length > LARGEST, Refusal::Large)?;
        refuse_if(wire_length > buffer.len(), Refusal::Room)?;
        let place = self.place_of(header.ssrc, Way::Sending)?;
        let index = sent_index(&self.records[place], header.sequence)?;
        let wire = packet::protect(&self.context(index)?, packet)?;
        // Nothing is refused from here on.
        buffer[..wire.len()].copy_from_slice(&wire);
        self.records[place].ledger.take(index);
        Ok(wire.len())
    }

    /// Undoes protection of the first `n` bytes of the buffer in place and gives `n` without the tag.
    pub fn unprotect(&mut self, buffer: &mut [u8], n: u64) -> Result<usize, Refusal> {
        let tag_length = self.suite().tag_length();
        let packet = told_packet(buffer, n, header::FIXED + tag_length)?;
        let (wire, tag) = packet.split_at(packet.len() - tag_length);
        let header = header::read(wire)?;
        refuse_if(self.is_wrong_profile_to_receive(&header), Refusal::Profile)?;
        self.check_elements(&header, wire)?;
        refuse_if(packet.len() > LARGEST, Refusal::Large)?;
        let place = self.place_of(header.ssrc, Way::Receiving)?;
        let index = received_index(&self.records[place], header.sequence)?;
        let plain = packet::unprotect(&self.context(index)?, wire, tag)?;
        // Nothing is refused from here on.
        buffer[..plain.len()].copy_from_slice(&plain);
        self.records[place].ledger.take(index);
        Ok(plain.len())
    }

    /// PROFILE on protect: policies 1 and 2 can send only tags that have a Cryptex form.
    fn is_wrong_profile_to_send(&self, header: &Header) -> bool {
        let Some(extension) = &header.extension else {
            return false;
        };
        self.policy.is_cryptex() && !packet::has_cryptex_form(extension.tag)
    }

    /// PROFILE on unprotect: policy 2 takes no extension but an encrypted one, and contributors only
    /// beside one, because they are in clear without it.
    fn is_wrong_profile_to_receive(&self, header: &Header) -> bool {
        let is_in_clear = match &header.extension {
            Some(extension) => !packet::is_cryptex_tag(extension.tag),
            None => !header.contributors.is_empty(),
        };
        self.policy == Policy::CryptexRequired && is_in_clear
    }

    /// ELEMENT: only policy 3 reads elements, and it reads all of them, listed or not.
    fn check_elements(&self, header: &Header, packet: &[u8]) -> Result<(), Refusal> {
        if let (Policy::Mask, Some(extension)) = (self.policy, &header.extension) {
            elements::read(extension.tag, &packet[extension.block.clone()])?;
        }
        Ok(())
    }

    fn place_of(&self, ssrc: u32, way: Way) -> Result<usize, Refusal> {
        let is_it = |record: &Record| record.ssrc == ssrc && record.way == way;
        self.records.iter().position(is_it).ok_or(Refusal::Stream)
    }

    /// An unmade session has no records, so its calls end before this.
    fn context(&self, index: i128) -> Result<Context<'_>, Refusal> {
        let keys = self.keys.as_ref().ok_or(Refusal::Stream)?;
        Ok(Context { keys, policy: self.policy, ids: &self.ids, index })
    }
}

/// The packet that `n` tells of: LENGTH where it is not in the buffer, SHORT under `least` bytes.
fn told_packet(buffer: &[u8], n: u64, least: usize) -> Result<&[u8], Refusal> {
    let n = usize::try_from(n).map_err(|_| Refusal::Length)?;
    let packet = buffer.get(..n).ok_or(Refusal::Length)?;
    refuse_if(packet.len() < least, Refusal::Short)?;
    Ok(packet)
}

/// The index of a packet to send: ORDER or WORN.
fn sent_index(record: &Record, sequence: u16) -> Result<i128, Refusal> {
    match record.ledger.highest() {
        None => Ok(index::first(record.rollover, sequence)),
        Some(last) => index::next_sent(last, sequence),
    }
}

/// The index of an arriving packet: WORN, OLD or REPEAT.
fn received_index(record: &Record, sequence: u16) -> Result<i128, Refusal> {
    let index = match record.ledger.highest() {
        None => index::first(record.rollover, sequence),
        Some(highest) => index::guess(highest, sequence),
    };
    record.ledger.judge(index)?;
    Ok(index)
}
