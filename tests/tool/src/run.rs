//! One run of the tool, compared with what is expected of it.

use crate::expected::{refusal, Expected, Text};
use crate::failure::{shown, Failure};
use std::cell::Cell;
use std::fs;
use std::io::Write;
use std::path::{Path, PathBuf};
use std::process::{Command, Output, Stdio};
use std::thread;

/// What is expected wrongly: a part of every run of one verb.
pub struct Wrong {
    verb: String,
    part: String,
}

impl Wrong {
    /// `VERB.PART`, with the part stdout, stderr or status.
    pub fn parse(word: &str) -> Option<Wrong> {
        let (verb, part) = word.split_once('.')?;
        let known = ["stdout", "stderr", "status"].contains(&part);
        known.then(|| Wrong {
            verb: verb.to_string(),
            part: part.to_string(),
        })
    }

    fn spoil(&self, ask: &Ask, expected: &mut Expected) {
        if ask.words.first() != Some(&self.verb) {
            return;
        }
        match &*self.part {
            "stdout" => expected.stdout.spoil(),
            "stderr" => expected.stderr.spoil(),
            _ => expected.status += 1,
        }
    }
}

/// The tool, and the folder in which it runs.
pub struct Tool {
    path: PathBuf,
    folder: PathBuf,
    wrong: Option<Wrong>,
    runs: Cell<usize>,
}

/// Arguments, and what stands on standard input.
pub struct Ask {
    pub words: Vec<String>,
    pub input: Vec<u8>,
}

/// The arguments of a line, parted at its spaces.
pub fn ask(line: &str) -> Ask {
    Ask {
        words: line.split_whitespace().map(str::to_string).collect(),
        input: Vec::new(),
    }
}

impl Ask {
    pub fn fed(mut self, input: impl AsRef<[u8]>) -> Self {
        self.input = input.as_ref().to_vec();
        self
    }
}

impl Tool {
    pub fn new(path: &Path, wrong: Option<Wrong>) -> Result<Tool, Failure> {
        let missing = |error| Failure::new(format!("{}: {error}", path.display()));
        let path = path.canonicalize().map_err(missing)?;
        let name = format!("trackrouter-tool-{}", std::process::id());
        let folder = std::env::temp_dir().join(name);
        // A folder that is there already is somebody else's.
        fs::create_dir(&folder)?;
        Ok(Tool {
            path,
            folder,
            wrong,
            runs: Cell::new(0),
        })
    }

    pub fn runs(&self) -> usize {
        self.runs.get()
    }

    /// Writes a file of the folder.
    pub fn put(&self, name: &str, bytes: impl AsRef<[u8]>) -> Result<(), Failure> {
        Ok(fs::write(self.file(name), bytes)?)
    }

    pub fn get(&self, name: &str) -> Result<Vec<u8>, Failure> {
        Ok(fs::read(self.file(name))?)
    }

    pub fn file(&self, name: impl AsRef<Path>) -> PathBuf {
        self.folder.join(name)
    }

    /// The command, to run in the folder.
    pub fn command(&self, ask: &Ask) -> Command {
        self.runs.set(self.runs.get() + 1);
        let mut command = Command::new(&self.path);
        command.args(&ask.words).current_dir(&self.folder);
        command
    }

    pub fn output(&self, ask: &Ask) -> Result<Output, Failure> {
        let mut command = self.command(ask);
        command.stdin(Stdio::piped());
        command.stdout(Stdio::piped()).stderr(Stdio::piped());
        let mut child = command.spawn()?;
        let mut stdin = child.stdin.take().expect("a pipe");
        let input = ask.input.clone();
        // The tool may stop reading early: what is left is lost.
        let feed = thread::spawn(move || drop(stdin.write_all(&input)));
        let output = child.wait_with_output()?;
        feed.join().expect("the input is written");
        Ok(output)
    }

    pub fn expect(&self, ask: &Ask, expected: Expected) -> Result<(), Failure> {
        let output = self.output(ask)?;
        self.compare(ask, &output, expected)
    }

    /// Compares a run with what is expected of it.
    pub fn compare(
        &self,
        ask: &Ask,
        output: &Output,
        mut expected: Expected,
    ) -> Result<(), Failure> {
        if let Some(wrong) = &self.wrong {
            wrong.spoil(ask, &mut expected);
        }
        let right = output.status.code() == Some(expected.status)
            && expected.stdout.holds(&output.stdout)
            && expected.stderr.holds(&output.stderr);
        if right {
            return Ok(());
        }
        Err(Failure::new(format!(
            "{}\nexpected: status {}, standard output\n{}\nstandard error\n{}\n{}",
            described(ask),
            expected.status,
            expected.stdout.shown(),
            expected.stderr.shown(),
            told(output)
        )))
    }

    /// Success: this on standard output, nothing on standard error.
    pub fn right(&self, ask: &Ask, stdout: impl AsRef<[u8]>) -> Result<(), Failure> {
        let expected = Expected {
            status: 0,
            stdout: Text::Is(stdout.as_ref().to_vec()),
            stderr: Text::Is(Vec::new()),
        };
        self.expect(ask, expected)
    }

    /// A refusal with this number: its line on standard error.
    pub fn refused(&self, ask: &Ask, stdout: &str, number: u32) -> Result<(), Failure> {
        let expected = Expected {
            status: 1,
            stdout: Text::Is(stdout.into()),
            stderr: refusal(&ask.words[0], number),
        };
        self.expect(ask, expected)
    }

    /// Bad usage or bad input: one line on standard error with these pieces.
    pub fn wrong(&self, ask: &Ask, pieces: &[&str]) -> Result<(), Failure> {
        let mut all = vec!["trackrouter: "];
        all.extend(pieces);
        let expected = Expected {
            status: 2,
            stdout: Text::Is(Vec::new()),
            stderr: Text::line(&all),
        };
        self.expect(ask, expected)
    }
}

impl Drop for Tool {
    fn drop(&mut self) {
        let _ = fs::remove_dir_all(&self.folder);
    }
}

pub fn described(ask: &Ask) -> String {
    let input = match ask.input.is_empty() {
        true => String::new(),
        false => format!("\nstandard input\n{}", shown(&ask.input)),
    };
    format!("trackrouter {}{input}", ask.words.join(" "))
}

pub fn told(output: &Output) -> String {
    format!(
        "came: {}, standard output\n{}\nstandard error\n{}",
        output.status,
        shown(&output.stdout),
        shown(&output.stderr)
    )
}
