//! The call script of CALLS.md: reads a line, makes its call, gives the line to write. All words
//! of a line are read before its call is made, so an unreadable line changes nothing.

use crate::elements;
use crate::hex;
use crate::index::{self, Ledger};
use crate::lines;
use crate::refusal::{number, Refusal};
use crate::session::{Record, Session, Way};
use crate::stretch::Stretch;
use crate::words;
use std::io::{self, BufRead, Write};

const SESSIONS: usize = 8;
const UNREADABLE: &[u8] = b"?";

/// The eight sessions a script works on.
pub struct Desk {
    sessions: Vec<Session>,
}

impl Default for Desk {
    fn default() -> Desk {
        Desk { sessions: vec![Session::unmade(); SESSIONS] }
    }
}

impl Desk {
    /// The line to write for a line read, both without LF, or None where nothing is written.
    pub fn answer(&mut self, line: &[u8]) -> Option<Vec<u8>> {
        // CALLS.md leaves open whether a comment can be overlong; the length is looked at first,
        // because such a line cannot be read at all.
        if line.len() > lines::LONGEST {
            return Some(UNREADABLE.to_vec());
        }
        // Nothing else is asked of a comment: it may hold a CR and two spaces in a row.
        if line.is_empty() || line[0] == b'#' {
            return None;
        }
        Some(self.read_and_call(line).unwrap_or(UNREADABLE.to_vec()))
    }

    /// The session that this word names.
    pub fn session(&self, session: &[u8]) -> Option<&Session> {
        self.sessions.get(words::session(session)?)
    }

    /// None for a line that cannot be read.
    fn read_and_call(&mut self, line: &[u8]) -> Option<Vec<u8>> {
        let words = words::split(line)?;
        let (first, rest) = words.split_first()?;
        let answer = match (*first, rest) {
            // TEXT is the rest of the line: one word or more, of any bytes but CR and LF.
            (b"case", [_, ..]) => {
                *self = Desk::default();
                return Some(line.to_vec());
            }
            (b"make", words) => self.make(words)?,
            (b"add", [session, ssrc, way, rollover]) => self.add(session, ssrc, way, rollover)?,
            (b"protect", [session, n, buffer]) => self.protect(session, n, buffer)?,
            (b"unprotect", [session, n, buffer]) => self.unprotect(session, n, buffer)?,
            (b"find", [id, packet]) => find(id, packet)?,
            (b"state", [session]) => self.state(session)?,
            (b"guess", [highest, sequence]) => guess(highest, sequence)?,
            (b"mask", [tag, block, ids]) => mask(tag, block, ids)?,
            (b"stretch", words) => stretch(words)?,
            _ => return None,
        };
        Some(answer.into_bytes())
    }

    fn make(&mut self, words: &[&[u8]]) -> Option<String> {
        let [session, key, salt, policy, ids, suite @ ..] = words else {
            return None;
        };
        let (session, suite) = (words::session(session)?, words::suite(suite)?);
        let (key, salt) = (words::key(key)?, words::key(salt)?);
        let (policy, ids) = (words::number(policy)?, words::key(ids)?);
        let result = Session::make(suite, &key, &salt, policy, &ids);
        let answer = number(&result).to_string();
        // A refused making gives a session too, the unmade one, and it takes this place.
        self.sessions[session] = result.unwrap_or(Session::unmade());
        Some(answer)
    }

    fn add(&mut self, session: &[u8], ssrc: &[u8], way: &[u8], rollover: &[u8]) -> Option<String> {
        let session = words::session(session)?;
        let (ssrc, way) = (words::ssrc(ssrc)?, words::way(way)?);
        let rollover = words::rollover(rollover)?;
        let result = self.sessions[session].add(ssrc, way, rollover);
        Some(number(&result).to_string())
    }

    fn protect(&mut self, session: &[u8], n: &[u8], buffer: &[u8]) -> Option<String> {
        let (session, n) = (words::session(session)?, words::number(n)?);
        let mut buffer = words::buffer(buffer)?;
        let result = self.sessions[session].protect(&mut buffer, n);
        Some(packet_answer(&result, &buffer))
    }

    fn unprotect(&mut self, session: &[u8], n: &[u8], buffer: &[u8]) -> Option<String> {
        let (session, n) = (words::session(session)?, words::number(n)?);
        let mut buffer = words::buffer(buffer)?;
        let result = self.sessions[session].unprotect(&mut buffer, n);
        Some(packet_answer(&result, &buffer))
    }

    fn state(&self, session: &[u8]) -> Option<String> {
        let session = &self.sessions[words::session(session)?];
        let records: Vec<String> = session.records().iter().map(record_text).collect();
        let records = if records.is_empty() { "-".to_string() } else { records.join(";") };
        let made = u8::from(session.is_made());
        Some(format!("{made} {} {records}", session.policy().number()))
    }
}

/// `NO LENGTH BUFFER`; the length is 0 with a refusal.
fn packet_answer(result: &Result<usize, Refusal>, buffer: &[u8]) -> String {
    let length = result.unwrap_or(0);
    format!("{} {length} {}", number(result), hex::write(buffer))
}

/// `SSRC:WAY:HIGHEST:SEEN`.
fn record_text(record: &Record) -> String {
    let way = match record.way {
        Way::Sending => "s",
        Way::Receiving => "r",
    };
    let highest = record.ledger.highest().map_or("-".to_string(), |index| index.to_string());
    format!("{:08x}:{way}:{highest}:{}", record.ssrc, seen_text(record))
}

fn seen_text(record: &Record) -> String {
    let distances = record.ledger.seen();
    if record.way == Way::Sending || distances.is_empty() {
        return "-".to_string();
    }
    let distances: Vec<String> = distances.iter().map(|distance| distance.to_string()).collect();
    distances.join(",")
}

/// `NO BEGIN DATA`. An empty part begins at 0, wherever its element stands.
fn find(id: &[u8], packet: &[u8]) -> Option<String> {
    let (id, packet) = (words::id(id)?, words::buffer(packet)?);
    let result = elements::find(id, &packet);
    let number = number(&result);
    let part = result.unwrap_or(0..0);
    let begin = if part.is_empty() { 0 } else { part.start };
    Some(format!("{number} {begin} {}", hex::write(&packet[part])))
}

/// `NO INDEX DISTANCE`. The distance is told with a refusal too.
fn guess(highest: &[u8], sequence: &[u8]) -> Option<String> {
    let (highest, sequence) = (words::highest(highest)?, words::sequence(sequence)?);
    let index = index::guess(highest, sequence);
    let result = Ledger::holding(highest).judge(index);
    let told = if result.is_ok() { index } else { 0 };
    Some(format!("{} {told} {}", number(&result), index - highest))
}

/// `NO MASK`. The block may be of any length here, also one that is no multiple of four.
fn mask(tag: &[u8], block: &[u8], ids: &[u8]) -> Option<String> {
    let (tag, block) = (words::tag(tag)?, words::buffer(block)?);
    let ids = elements::id_set(&words::key(ids)?);
    let result = elements::mask(tag, &block, &ids);
    let number = number(&result);
    Some(format!("{number} {}", hex::write(&result.unwrap_or_default())))
}

/// `NO DATA`. With a refusal the data is as it was read.
fn stretch(words: &[&[u8]]) -> Option<String> {
    let mut stretch = Stretch::read(words)?;
    let result = stretch.encrypt();
    Some(format!("{} {}", number(&result), hex::write(&stretch.data)))
}

/// Answers a whole script.
pub fn run(input: &mut impl BufRead, output: &mut impl Write) -> io::Result<()> {
    let mut desk = Desk::default();
    while let Some(line) = lines::next(input)? {
        if let Some(answer) = desk.answer(&line) {
            output.write_all(&answer)?;
            output.write_all(b"\n")?;
        }
    }
    output.flush()
}
