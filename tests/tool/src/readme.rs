//! A section of the README: what is typed and shown there.

use crate::expected::{Expected, Text};
use crate::failure::Failure;
use crate::run::{ask, Tool};
use std::fs;

const README: &str = concat!(env!("CARGO_MANIFEST_DIR"), "/../../README.md");

pub struct Section {
    name: &'static str,
    text: String,
}

impl Section {
    /// The section with this head.
    pub fn read(name: &'static str) -> Result<Section, Failure> {
        let readme = fs::read_to_string(README)?;
        let behind = readme.split_once(&format!("\n## {name}\n"));
        let missing = || Failure::new(format!("the README has no {name}"));
        let (_, behind) = behind.ok_or_else(missing)?;
        let text = behind.split("\n## ").next().unwrap_or(behind).to_string();
        Ok(Section { name, text })
    }

    /// The blocks of lines that four spaces set in, without these.
    pub fn blocks(&self) -> Vec<String> {
        let mut blocks = Vec::new();
        let mut inside = false;
        for line in self.text.lines() {
            let Some(line) = line.strip_prefix("    ") else {
                inside = false;
                continue;
            };
            if !inside {
                blocks.push(String::new());
            }
            inside = true;
            let block = blocks.last_mut().expect("one is begun");
            *block += &format!("{line}\n");
        }
        blocks
    }

    /// The text with a line changed into one that the section names, or without a
    /// line that it names.
    pub fn edited(&self, text: &str, from: &str, to: &str) -> Result<String, Failure> {
        self.quoted(if to.is_empty() { from } else { to })?;
        match text.contains(from) {
            true => Ok(text.replace(from, to)),
            false => Err(Failure::new(format!("the README's sheet has no {from}"))),
        }
    }

    /// The section names this in its prose.
    pub fn quoted(&self, what: &str) -> Result<(), Failure> {
        let name = self.name;
        match self.text.contains(&format!("`{what}`")) {
            true => Ok(()),
            false => Err(Failure::new(format!("{name} does not name {what}"))),
        }
    }

    /// The runs of a block, which are these, print what it shows.
    pub fn shown(&self, tool: &Tool, block: &str, lines: &[&str]) -> Result<(), Failure> {
        let runs: Vec<(&str, &str)> = runs(block);
        if !runs.iter().map(|(line, _)| line).eq(lines) {
            let name = self.name;
            let text = format!("{name} does not show {lines:?} but\n{block}");
            return Err(Failure::new(text));
        }
        for (line, printed) in runs {
            tool.expect(&ask(line), expected(printed))?;
        }
        Ok(())
    }
}

/// Each command of a block, and the lines below it.
fn runs(block: &str) -> Vec<(&str, &str)> {
    let parts = block.split("$ trackrouter ").skip(1);
    parts.filter_map(|part| part.split_once('\n')).collect()
}

/// The lines of the nets below a command's first line.
pub fn lines_of<'a>(block: &'a str, line: &str) -> &'a str {
    let printed = runs(block).into_iter().find(|run| run.0 == line);
    let lines = printed.and_then(|(_, printed)| printed.split_once('\n'));
    lines.map_or("", |(_, lines)| lines)
}

/// The streams as a terminal shows them: lines that begin with the command's name
/// are standard error. The status follows from the answer; a sheet that is
/// printed has none.
fn expected(printed: &str) -> Expected {
    let said = |line: &&str| line.starts_with("trackrouter: ");
    let lines = || printed.split_inclusive('\n');
    let stderr: String = lines().filter(said).collect();
    let stdout: String = lines().filter(|line| !said(line)).collect();
    let answer = stdout.strip_prefix("answer ");
    let zero = answer.is_none_or(|rest| rest.split_whitespace().next() == Some("0"));
    let success = zero && stderr.is_empty();
    Expected {
        status: i32::from(!success),
        stdout: Text::Is(stdout.into()),
        stderr: Text::Is(stderr.into()),
    }
}
