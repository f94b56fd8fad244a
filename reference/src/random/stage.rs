//! Where a random script is made: each line is written and, if it is a call, run at once.

use super::dice::Dice;
use super::spoil;
use crate::hex;
use crate::keystream::Keystream;
use crate::script::Desk;
use crate::suite::Suite;
use std::io::{self, Write};

/// What a call answered. The length is a packet call's, the buffer a packet call's or the data of a
/// stretch.
pub struct Answer {
    pub number: u64,
    pub length: usize,
    pub buffer: Vec<u8>,
}

impl Answer {
    /// The packet a protect or an unprotect left at the buffer's begin.
    pub fn packet(&self) -> &[u8] {
        self.buffer.get(..self.length).unwrap_or(&[])
    }
}

pub struct Stage<'a> {
    pub dice: Dice,
    desk: Desk,
    output: &'a mut dyn Write,
    /// Calls still to be written.
    left: u64,
    cases: u64,
    result: io::Result<()>,
}

impl<'a> Stage<'a> {
    pub fn new(seed: u64, count: u64, output: &'a mut dyn Write) -> Stage<'a> {
        let (dice, desk) = (Dice::new(seed), Desk::default());
        Stage { dice, desk, output, left: count, cases: 0, result: Ok(()) }
    }

    /// Whether further calls can be written.
    pub fn is_open(&self) -> bool {
        self.left > 0 && self.result.is_ok()
    }

    pub fn finish(self) -> io::Result<()> {
        self.result?;
        self.output.flush()
    }

    /// Writes and runs one line of any kind.
    fn line(&mut self, line: &[u8]) -> Option<Vec<u8>> {
        if self.result.is_ok() {
            self.result = self.output.write_all(line).and_then(|()| self.output.write_all(b"\n"));
        }
        self.desk.answer(line)
    }

    pub fn case(&mut self, name: &str) {
        self.cases += 1;
        let line = format!("case {} {name}", self.cases);
        self.line(line.as_bytes());
    }

    /// Writes and runs one call, now and then with an unreadable or a silent line before it. None
    /// where no call is left, which ends the scene.
    pub fn call(&mut self, line: String) -> Option<Answer> {
        if !self.is_open() {
            return None;
        }
        if self.dice.one_in(40) {
            let spoiled = spoil::spoiled(&mut self.dice, &line);
            self.line(&spoiled);
        }
        if self.dice.one_in(200) {
            let silent = self.dice.pick(&["", "#", "# a comment", "#state 0"]);
            self.line(silent.as_bytes());
        }
        self.left -= 1;
        let answer = self.line(line.as_bytes())?;
        Some(read_answer(&answer))
    }

    /// Writes and runs a line that cannot be read; it is no call.
    pub fn unreadable(&mut self, line: &[u8]) {
        if self.is_open() {
            self.line(line);
        }
    }

    /// A decimal number, now and then with leading zeros.
    pub fn decimal(&mut self, number: u64) -> String {
        if self.dice.one_in(30) {
            format!("{}{number}", "0".repeat(self.dice.size(1, 25)))
        } else {
            number.to_string()
        }
    }

    pub fn protect(&mut self, session: u64, n: u64, buffer: &[u8]) -> Option<Answer> {
        let n = self.decimal(n);
        self.call(format!("protect {session} {n} {}", hex::write(buffer)))
    }

    pub fn unprotect(&mut self, session: u64, n: u64, buffer: &[u8]) -> Option<Answer> {
        let n = self.decimal(n);
        self.call(format!("unprotect {session} {n} {}", hex::write(buffer)))
    }

    pub fn find(&mut self, id: u64, packet: &[u8]) -> Option<Answer> {
        let id = self.decimal(id);
        self.call(format!("find {id} {}", hex::write(packet)))
    }

    pub fn state(&mut self, session: u64) -> Option<Answer> {
        self.call(format!("state {session}"))
    }

    pub fn stretch(&mut self, keystream: &Keystream, start: u64, data: &[u8]) -> Option<Answer> {
        let Keystream { key, salt, ssrc, index } = keystream;
        let (index, start) = (self.decimal(*index as u64), self.decimal(start));
        let (key, salt, data) = (hex::write(key), hex::write(salt), hex::write(data));
        self.call(format!("stretch {key} {salt} {ssrc:08x} {index} {start} {data}"))
    }

    pub fn make(
        &mut self,
        session: u64,
        suite: Suite,
        (key, salt): (&[u8], &[u8]),
        policy: u64,
        ids: &[u8],
    ) -> Option<Answer> {
        let (key, salt, ids) = (hex::write(key), hex::write(salt), hex::write(ids));
        let policy = self.decimal(policy);
        let last = match suite {
            Suite::CounterMode => "",
            Suite::Gcm => " gcm",
        };
        self.call(format!("make {session} {key} {salt} {policy} {ids}{last}"))
    }

    pub fn add(&mut self, session: u64, ssrc: u32, way: &str, rollover: u32) -> Option<Answer> {
        let rollover = self.decimal(u64::from(rollover));
        self.call(format!("add {session} {ssrc:08x} {way} {rollover}"))
    }
}

/// Our own answer taken apart again; words that are not there count as 0 and empty.
fn read_answer(answer: &[u8]) -> Answer {
    let words: Vec<&[u8]> = answer.split(|byte| *byte == b' ').collect();
    let number = |place: usize| -> u64 {
        let word = words.get(place).copied().unwrap_or(b"");
        String::from_utf8_lossy(word).parse().unwrap_or(0)
    };
    let buffer = words[1..].last().and_then(|word| hex::read(word, 4_096));
    Answer { number: number(0), length: number(1) as usize, buffer: buffer.unwrap_or_default() }
}
