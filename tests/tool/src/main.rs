//! Runs the command `trackrouter` on files in a temporary folder and compares
//! what it prints, what it writes and its exit status with the paper, with what
//! follows by hand and with the model.
//!
//! `tool PATH` names the command. `--wrong VERB.PART` changes what is expected of
//! the verb's standard output, standard error or status, so that the run must
//! fail; `--wrong` alone is `--wrong route.stdout`.

mod cases;
mod chance;
mod dead;
mod draw;
mod expected;
mod explain;
mod failure;
mod files;
mod first_use;
mod forms;
mod lines;
mod marks;
mod output;
mod readme;
mod remove;
mod rim;
mod rows;
mod rubbish;
mod run;
mod standard;
mod terminal;
mod text;
mod tickets;
mod usage;

use failure::Failure;
use run::{Tool, Wrong};
use std::path::Path;
use std::process::ExitCode;

const USAGE: &str = "tool: PATH [--wrong [VERB.PART]], with the part stdout, stderr or status";

fn main() -> ExitCode {
    let words: Vec<String> = std::env::args().skip(1).collect();
    let words: Vec<&str> = words.iter().map(String::as_str).collect();
    let (path, wrong) = match words.as_slice() {
        [path] => (path, None),
        [path, "--wrong"] => (path, Some("route.stdout")),
        [path, "--wrong", what] => (path, Some(*what)),
        _ => {
            eprintln!("{USAGE}");
            return ExitCode::from(2);
        }
    };
    let spoiled = wrong.and_then(Wrong::parse);
    if wrong.is_some() && spoiled.is_none() {
        eprintln!("{USAGE}");
        return ExitCode::from(2);
    }
    let result = Tool::new(Path::new(path), spoiled).and_then(|tool| all(&tool));
    match result {
        Ok(runs) => {
            println!("tool: {runs} runs right");
            ExitCode::SUCCESS
        }
        Err(failure) => {
            println!("{failure}\ntool: failed");
            ExitCode::FAILURE
        }
    }
}

/// Every group of runs: how many there were.
fn all(tool: &Tool) -> Result<usize, Failure> {
    usage::run(tool)?;
    files::run(tool)?;
    forms::run(tool)?;
    tickets::run(tool)?;
    output::run(tool)?;
    remove::run(tool)?;
    standard::run(tool)?;
    rows::run(tool)?;
    rim::run(tool)?;
    marks::run(tool)?;
    dead::run(tool)?;
    cases::run(tool)?;
    explain::run(tool)?;
    draw::run(tool)?;
    first_use::run(tool)?;
    terminal::run(tool)?;
    chance::run(tool)?;
    rubbish::run(tool)?;
    Ok(tool.runs())
}
