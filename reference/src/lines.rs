//! Cutting standard input into lines, after CALLS.md: a line ends with one LF, and a last line
//! without LF counts. Input is bytes of any kind.

use std::io::{self, BufRead, ErrorKind};

/// A line of more bytes than this (the LF not counted) cannot be read.
pub const LONGEST: usize = 20_000;

/// The next line without its LF, or None at the end of input. Of an overlong line only so much is
/// kept that one can still see it is overlong, so that a line of any length needs little memory.
pub fn next(input: &mut impl BufRead) -> io::Result<Option<Vec<u8>>> {
    let mut line = Vec::new();
    let mut is_anything_there = false;
    loop {
        let piece = match input.fill_buf() {
            Err(error) if error.kind() == ErrorKind::Interrupted => continue,
            piece => piece?,
        };
        if piece.is_empty() {
            return Ok(is_anything_there.then_some(line));
        }
        is_anything_there = true;
        let end = piece.iter().position(|byte| *byte == b'\n');
        let part = &piece[..end.unwrap_or(piece.len())];
        line.extend(part.iter().take(LONGEST + 1 - line.len()));
        let used = part.len() + usize::from(end.is_some());
        input.consume(used);
        if end.is_some() {
            return Ok(Some(line));
        }
    }
}
