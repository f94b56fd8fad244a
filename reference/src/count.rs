//! `reference count`: runs a script and tells how often each kind of line was answered with each
//! number, and which refusals of the papers never came. Of some answers it tells parts, too.

use crate::lines;
use crate::parts::{self, Part, Parts};
use crate::refusal::Refusal::{self, *};
use crate::script::Desk;
use crate::suite::Suite;
use crate::words;
use std::collections::BTreeMap;
use std::io::{self, BufRead, Write};

/// The kinds of line in the table, with the refusals that documents 01 and 02 let each give. A line on
/// a session of the second suite is of a kind of its own; an unmade session is of the first, and
/// ELEMENT needs policy 3, which the second has not.
const KINDS: [(&str, &[Refusal]); 14] = [
    ("make", &[Keys, Policy]),
    ("make gcm", &[Keys, Policy]),
    ("add", &[Keys, Twice, Full]),
    ("add gcm", &[Twice, Full]),
    (
        "protect",
        &[Length, Short, Version, Header, Profile, Element, Large, Room, Stream, Order, Worn],
    ),
    ("protect gcm", &[Length, Short, Version, Header, Profile, Large, Room, Stream, Order, Worn]),
    (
        "unprotect",
        &[Length, Short, Version, Header, Profile, Element, Large, Stream, Worn, Old, Repeat, Tag],
    ),
    (
        "unprotect gcm",
        &[Length, Short, Version, Header, Profile, Large, Stream, Worn, Old, Repeat, Tag],
    ),
    ("find", &[Short, Version, Header, Element, Absent]),
    ("guess", &[Worn, Old, Repeat]),
    ("mask", &[Element]),
    ("stretch", &[Large]),
    ("state", &[]),
    ("?", &[]),
];

/// How often each (kind, number) was answered, and each part.
#[derive(Default)]
pub struct Tally {
    counts: BTreeMap<(String, u64), u64>,
    parts: Parts,
}

impl Tally {
    /// Counts one line and the desk's answer. Unreadable lines are a kind of their own; `case` is
    /// no call.
    pub fn note(&mut self, desk: &Desk, line: &[u8], answer: &[u8]) {
        let kind = if answer == b"?" { "?".to_string() } else { kind_of(desk, line) };
        // For `state` the number is MADE, for `?` there is none and 0 stands in.
        let number = String::from_utf8_lossy(first_word(answer)).parse().unwrap_or(0);
        self.parts.note(desk, line, answer, (&kind, number));
        if kind != "case" {
            *self.counts.entry((kind, number)).or_default() += 1;
        }
    }

    fn count(&self, kind: &str, number: u64) -> u64 {
        self.counts.get(&(kind.to_string(), number)).copied().unwrap_or(0)
    }

    /// How often a part came.
    pub fn part_count(&self, part: Part) -> u64 {
        self.parts.count(part)
    }

    fn answers_of<'a>(&'a self, kind: &'a str) -> impl Iterator<Item = (u64, u64)> + 'a {
        let of_kind = self.counts.iter().filter(move |((counted, _), _)| counted == kind);
        of_kind.map(|((_, number), count)| (*number, *count))
    }

    /// The refusals a kind of line can give and never gave, and the parts that never came.
    pub fn absent(&self) -> Vec<String> {
        let mut absent = Vec::new();
        for (kind, refusals) in KINDS {
            for refusal in refusals {
                if self.count(kind, refusal.number()) == 0 {
                    absent.push(format!("{kind} {} {}", refusal.number(), refusal.name()));
                }
            }
        }
        for part in parts::all() {
            if self.part_count(part) == 0 {
                absent.push(format!("{} {} {}", part.0, part.1, part.2));
            }
        }
        absent
    }

    pub fn write(&self, output: &mut impl Write) -> io::Result<()> {
        for (kind, refusals) in KINDS {
            let total: u64 = self.answers_of(kind).map(|(_, count)| count).sum();
            writeln!(output, "{kind:<13} {total:>8}")?;
            for (number, count) in self.answers_of(kind) {
                let name = answer_name(kind, number, refusals);
                writeln!(output, "  {number:>2} {name:<10} {count:>6}")?;
                self.write_parts(kind, number, output)?;
            }
        }
        for absent in self.absent() {
            writeln!(output, "absent: {absent}")?;
        }
        Ok(())
    }

    fn write_parts(&self, kind: &str, number: u64, output: &mut impl Write) -> io::Result<()> {
        for part in parts::all().filter(|part| part.0 == kind && part.1 == number) {
            writeln!(output, "     {:<16} {:>6}", part.2, self.part_count(part))?;
        }
        Ok(())
    }
}

/// The kind of a line that can be read: its first word and, with a session of the second suite, `gcm`.
fn kind_of(desk: &Desk, line: &[u8]) -> String {
    let words = words::split(line).unwrap_or_default();
    let suite = match words[..] {
        [b"make", _, _, _, _, _, ref last @ ..] => words::suite(last),
        [b"add" | b"protect" | b"unprotect", session, ..] => {
            desk.session(session).map(|s| s.suite())
        }
        _ => None,
    };
    let kind = String::from_utf8_lossy(first_word(line));
    match suite {
        Some(Suite::Gcm) => format!("{kind} gcm"),
        _ => kind.into_owned(),
    }
}

fn first_word(line: &[u8]) -> &[u8] {
    line.split(|byte| *byte == b' ').next().unwrap_or(b"")
}

fn answer_name(kind: &str, number: u64, refusals: &[Refusal]) -> &'static str {
    match (kind, number) {
        ("?", _) => "unreadable",
        ("state", 0) => "unmade",
        ("state", _) => "made",
        (_, 0) => "result",
        _ => {
            let refusal = refusals.iter().find(|refusal| refusal.number() == number);
            refusal.map_or("UNEXPECTED", |refusal| refusal.name())
        }
    }
}

/// Runs the script, writes the table and tells whether every refusal and every part came.
pub fn run(input: &mut impl BufRead, output: &mut impl Write) -> io::Result<bool> {
    let mut desk = Desk::default();
    let mut tally = Tally::default();
    while let Some(line) = lines::next(input)? {
        if let Some(answer) = desk.answer(&line) {
            tally.note(&desk, &line, &answer);
        }
    }
    tally.write(output)?;
    output.flush()?;
    Ok(tally.absent().is_empty())
}
