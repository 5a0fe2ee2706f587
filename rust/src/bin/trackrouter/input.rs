//! Sheets, tickets and lists of dead wires from files, in either form.

use crate::options::{Form, Options};
use crate::verb::Role;
use crate::Problem;
use std::ffi::OsStr;
use std::fmt::Display;
use std::fs::File;
use std::io::{self, Read};
use trackrouter::dead;
use trackrouter::lines::{self, Missing};
use trackrouter::sheet::Sheet;
use trackrouter::text;

/// The most bytes that are read of a file. The longest sheet in bytes is far shorter.
const LARGEST: u64 = 16_000_000;

/// A file's name for messages, and what it holds.
pub struct Source {
    name: String,
    bytes: Vec<u8>,
}

/// A sheet or a list in bytes, and its text if that is how it came.
#[derive(Default)]
pub struct Typed {
    pub bytes: Vec<u8>,
    pub text: Option<String>,
}

impl Source {
    fn load(input: &OsStr) -> Result<Source, Problem> {
        if input == "-" {
            return Source::fill("standard input".to_string(), io::stdin().lock());
        }
        let name = input.to_string_lossy().into_owned();
        match File::open(input) {
            Ok(file) => Source::fill(name, file),
            Err(error) => Err(Problem::new(format!("{name}: {error}"))),
        }
    }

    /// Reads all there is, but no more than a byte over the limit.
    fn fill(name: String, from: impl Read) -> Result<Source, Problem> {
        let mut bytes = Vec::new();
        let read = from.take(LARGEST + 1).read_to_end(&mut bytes);
        let source = Source { name, bytes };
        match read {
            Err(error) => Err(source.problem(error)),
            Ok(count) if count as u64 > LARGEST => Err(source.problem("it is over 16 MB")),
            Ok(_) => Ok(source),
        }
    }

    fn problem(&self, reason: impl Display) -> Problem {
        Problem::new(format!("{}: {reason}", self.name))
    }

    /// What it holds, as text; `option` is the one that reads it as bytes.
    fn text(&self, option: &str) -> Result<&str, Problem> {
        std::str::from_utf8(&self.bytes).map_err(|error| {
            let place = error.valid_up_to();
            self.problem(format!(
                "byte {place} is no text in UTF-8 ({option} reads it as bytes)"
            ))
        })
    }

    /// What it holds, in this form; `parse` gives the bytes that a text says.
    fn typed(
        self,
        form: Form,
        option: &str,
        parse: impl Fn(&Source, &str) -> Result<Vec<u8>, Problem>,
    ) -> Result<Typed, Problem> {
        if form == Form::Bytes {
            return Ok(Typed {
                bytes: self.bytes,
                text: None,
            });
        }
        let text = self.text(option)?;
        Ok(Typed {
            bytes: parse(&self, text)?,
            text: Some(text.to_string()),
        })
    }

    /// The problem of a text that does not parse. Bytes may have been taken for text.
    fn unparsed(&self, reason: impl Display, option: &str) -> Problem {
        let control = |byte: &u8| byte.is_ascii_control() && !b"\t\n\r".contains(byte);
        if self.bytes.iter().any(control) {
            return self.problem(format!("{reason} ({option} reads it as bytes)"));
        }
        self.problem(reason)
    }
}

/// The sheet that is given.
pub fn sheet(options: &Options) -> Result<Typed, Problem> {
    const OPTION: &str = "--bytes";
    let source = Source::load(options.needed(Role::Sheet)?)?;
    let by_content = match source.bytes.is_empty() || source.bytes.contains(&0) {
        true => Form::Bytes,
        false => Form::Text,
    };
    let form = options.sheet_form.unwrap_or(by_content);
    source.typed(form, OPTION, |source, text| {
        let sheet = text::parse(text).map_err(|error| source.unparsed(error, OPTION))?;
        sheet.bytes().map_err(|error| source.problem(error))
    })
}

/// The list of dead wires that is given, in bytes; without one no wire is dead.
pub fn dead(options: &Options) -> Result<Vec<u8>, Problem> {
    Ok(dead_if_given(options)?.unwrap_or_default().bytes)
}

/// The list of dead wires, if one is given.
pub fn dead_if_given(options: &Options) -> Result<Option<Typed>, Problem> {
    const OPTION: &str = "--dead-bytes";
    let Some(input) = options.input(Role::Dead) else {
        return Ok(None);
    };
    let source = Source::load(input)?;
    // A chip has fewer than 512 channels, so the high byte of each is 0 or 1; no text has such a byte.
    let by_content = match source.bytes.iter().any(|&byte| byte < 2) {
        true => Form::Bytes,
        false => Form::Text,
    };
    let form = options.dead_form.unwrap_or(by_content);
    let list = source.typed(form, OPTION, |source, text| {
        let list = dead::parse(text).map_err(|error| source.unparsed(error, OPTION))?;
        Ok(dead::bytes(&list))
    });
    list.map(Some)
}

/// A ticket as it came. Lines mean nothing without their sheet.
pub enum Ticket {
    Bytes(Vec<u8>),
    Lines(Source),
}

impl Ticket {
    fn load(options: &Options, input: &OsStr) -> Result<Ticket, Problem> {
        let source = Source::load(input)?;
        // No track is the code of a digit, and every ticket in lines has a digit.
        let by_content = match source.bytes.iter().any(u8::is_ascii_digit) {
            true => Form::Text,
            false => Form::Bytes,
        };
        Ok(match options.ticket_form.unwrap_or(by_content) {
            Form::Bytes => Ticket::Bytes(source.bytes),
            Form::Text => Ticket::Lines(source),
        })
    }

    /// The ticket in bytes, its lines matched with the accepted sheet.
    pub fn matched(&self, sheet: &Sheet, missing: Missing) -> Result<Vec<u8>, Problem> {
        const OPTION: &str = "--ticket-bytes";
        match self {
            Ticket::Bytes(bytes) => Ok(bytes.clone()),
            Ticket::Lines(source) => lines::parse(sheet, source.text(OPTION)?, missing)
                .map_err(|error| source.unparsed(error, OPTION)),
        }
    }

    /// The ticket in bytes for a call on this sheet. A call answers for a refused sheet before it looks at the ticket; no lines can be
    /// matched with such a sheet, so they are given as they are.
    pub fn for_call(&self, sheet: &[u8], missing: Missing) -> Result<Vec<u8>, Problem> {
        match (Sheet::read(sheet), self) {
            (Ok(sheet), _) => self.matched(&sheet, missing),
            (Err(_), Ticket::Bytes(bytes)) => Ok(bytes.clone()),
            (Err(_), Ticket::Lines(source)) => Ok(source.bytes.clone()),
        }
    }

    /// The lines, if that is how it came.
    pub fn lines(&self) -> Option<&str> {
        match self {
            Ticket::Bytes(_) => None,
            Ticket::Lines(source) => std::str::from_utf8(&source.bytes).ok(),
        }
    }
}

/// The ticket that is given.
pub fn ticket(options: &Options) -> Result<Ticket, Problem> {
    Ticket::load(options, options.needed(Role::Ticket)?)
}

/// The ticket of a verb that can do without.
pub fn ticket_if_given(options: &Options) -> Result<Option<Ticket>, Problem> {
    let input = options.input(Role::Ticket);
    input.map(|input| Ticket::load(options, input)).transpose()
}
