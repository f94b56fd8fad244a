//! The program `reference`: answers a call script, writes a random one, or counts answers.

use std::io::{self, BufReader, BufWriter, Write};
use std::process::ExitCode;

const USAGE: &str = "usage: reference [run] | reference random SEED COUNT | reference count";
const FAILED: u8 = 2;

/// Ok(false) is the `count` command's exit status 1.
fn command(arguments: &[&str]) -> io::Result<bool> {
    let mut input = BufReader::new(io::stdin().lock());
    let mut output = BufWriter::new(io::stdout().lock());
    match arguments {
        [] | ["run"] => reference::script::run(&mut input, &mut output).map(|()| true),
        ["count"] => reference::count::run(&mut input, &mut output),
        ["random", seed, count] => {
            let (Ok(seed), Ok(count)) = (seed.parse(), count.parse()) else {
                return Err(io::Error::other(USAGE));
            };
            reference::random::run(seed, count, &mut output).map(|()| true)
        }
        _ => Err(io::Error::other(USAGE)),
    }
}

fn main() -> ExitCode {
    let arguments: Vec<String> =
        std::env::args_os().skip(1).map(|word| word.to_string_lossy().into_owned()).collect();
    let arguments: Vec<&str> = arguments.iter().map(String::as_str).collect();
    match command(&arguments) {
        Ok(true) => ExitCode::SUCCESS,
        Ok(false) => ExitCode::from(1),
        Err(error) => {
            // Not eprintln: that would panic where standard error is closed.
            let _ = writeln!(io::stderr(), "reference: {error}");
            ExitCode::from(FAILED)
        }
    }
}
