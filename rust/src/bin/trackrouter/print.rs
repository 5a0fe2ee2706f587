//! What goes to standard output, to standard error and to `--out`.

use crate::options::Options;
use crate::{Outcome, Problem, Status};
use std::io::{self, ErrorKind, IsTerminal, Write};

/// The longest line on standard error, in characters: a word of the input that it quotes may be of any length.
const LONGEST: usize = 1_000;

/// Writes to standard output. Whoever reads it may stop early: the rest is dropped, and the status is the usual one.
pub fn to_stdout(bytes: &[u8]) -> Result<(), Problem> {
    let mut stdout = io::stdout().lock();
    let written = stdout.write_all(bytes).and_then(|()| stdout.flush());
    match written {
        Err(error) if error.kind() != ErrorKind::BrokenPipe => {
            Err(Problem::new(format!("standard output: {error}")))
        }
        _ => Ok(()),
    }
}

/// Writes text to standard output, as all that a run has to do.
pub fn text(text: &str) -> Outcome {
    to_stdout(text.as_bytes())?;
    Ok(Status::Success)
}

/// Says one line on standard error. Nothing is left to do if that fails.
pub fn say(line: &str) {
    let _ = writeln!(io::stderr(), "trackrouter: {}", one_line(line));
}

/// The line with its control characters written out, and cut if it is too long.
pub fn one_line(line: &str) -> String {
    let mut shown = String::new();
    for (place, sign) in line.chars().enumerate() {
        if place == LONGEST {
            shown.push_str("...");
            break;
        }
        if sign.is_control() {
            shown.extend(sign.escape_default());
        } else {
            shown.push(sign);
        }
    }
    shown
}

/// Writes the file that `--out` names: whether there is one.
pub fn to_out_file(options: &Options, bytes: &[u8]) -> Result<bool, Problem> {
    let Some(path) = &options.out_file else {
        return Ok(false);
    };
    match std::fs::write(path, bytes) {
        Ok(()) => Ok(true),
        Err(error) => Err(Problem::new(format!("{}: {error}", path.display()))),
    }
}

/// Writes text to the file that `--out` names, else to standard output.
pub fn deliver_text(options: &Options, text: &str) -> Result<(), Problem> {
    match to_out_file(options, text.as_bytes())? {
        true => Ok(()),
        false => to_stdout(text.as_bytes()),
    }
}

/// Writes bytes to the file that `--out` names, else to standard output if that is no terminal.
pub fn deliver_bytes(options: &Options, bytes: &[u8]) -> Result<(), Problem> {
    match to_out_file(options, bytes)? {
        true => Ok(()),
        false if io::stdout().is_terminal() => Err(Problem::new(
            "bytes are not written to a terminal; give --out FILE",
        )),
        false => to_stdout(bytes),
    }
}
