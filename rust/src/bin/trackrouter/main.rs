//! The command `trackrouter`: the library's calls, and what helps to use them, on files.
//!
//! Exit status: 0 success, 1 a refusal by the library, 2 bad usage, a file that cannot be read or written, or text that does not parse.

mod drawing;
mod explaining;
mod flag;
mod forecast;
mod forms;
mod help;
mod input;
mod options;
mod print;
mod reading;
mod refusal;
mod removing;
mod routing;
mod verb;

use options::Options;
use std::ffi::{OsStr, OsString};
use std::process::ExitCode;
use verb::Verb;

/// How a run ends in which nothing is wrong with the inputs themselves.
#[derive(Clone, Copy, PartialEq, Eq)]
pub enum Status {
    Success,
    /// The library refused, and that is said already.
    Refused,
}

/// Bad usage, a file that cannot be read or written, or text that does not parse: one line that is still to be said.
pub struct Problem(String);

impl Problem {
    pub fn new(line: impl Into<String>) -> Problem {
        Problem(line.into())
    }
}

pub type Outcome = Result<Status, Problem>;

fn main() -> ExitCode {
    match run(std::env::args_os().skip(1)) {
        Ok(Status::Success) => ExitCode::SUCCESS,
        Ok(Status::Refused) => ExitCode::from(1),
        Err(Problem(line)) => {
            print::say(&line);
            ExitCode::from(2)
        }
    }
}

fn run(mut arguments: impl Iterator<Item = OsString>) -> Outcome {
    let Some(first) = arguments.next() else {
        return Err(Problem::new("no verb; try trackrouter --help"));
    };
    match first.to_str() {
        Some("--help" | "-h" | "help") => help(arguments),
        Some("--version" | "-V") => {
            end(arguments)?;
            print::text(&version())
        }
        _ => perform(find(&first)?, arguments),
    }
}

fn find(name: &OsStr) -> Result<&'static Verb, Problem> {
    let verb = name.to_str().and_then(verb::find);
    verb.ok_or_else(|| {
        let name = name.to_string_lossy();
        Problem::new(format!("no such verb: {name}; try trackrouter --help"))
    })
}

/// The help of all, or of the verb that follows.
fn help(mut arguments: impl Iterator<Item = OsString>) -> Outcome {
    let text = match arguments.next() {
        None => help::overview(),
        Some(name) => help::of(find(&name)?),
    };
    end(arguments)?;
    print::text(&text)
}

/// No argument is left.
fn end(mut arguments: impl Iterator<Item = OsString>) -> Result<(), Problem> {
    match arguments.next() {
        None => Ok(()),
        Some(word) => Err(Problem::new(format!(
            "{} is one word too many; try trackrouter --help",
            word.to_string_lossy()
        ))),
    }
}

fn perform(verb: &'static Verb, arguments: impl Iterator<Item = OsString>) -> Outcome {
    let options = Options::parse(verb, arguments)?;
    if options.help {
        return print::text(&help::of(verb));
    }
    (verb.run)(&options)
}

fn version() -> String {
    let package = env!("CARGO_PKG_VERSION");
    format!(
        "trackrouter {package} (library {})\n",
        trackrouter::version()
    )
}
