//! Runs at a terminal: the line about a large budget, and bytes that are not
//! written there.

use crate::failure::Failure;
use crate::output::trials;
use crate::run::{ask, described, Ask, Tool};
use crate::text;
use sheets::paper;
use std::ffi::{c_char, c_int, CStr};
use std::fs::{File, OpenOptions};
use std::io::Read;
use std::os::fd::FromRawFd;
use std::process::Stdio;

extern "C" {
    fn posix_openpt(flags: c_int) -> c_int;
    fn grantpt(fd: c_int) -> c_int;
    fn unlockpt(fd: c_int) -> c_int;
    fn ptsname(fd: c_int) -> *mut c_char;
}

/// Linux's O_RDWR and O_NOCTTY.
const FLAGS: c_int = 0o2 | 0o400;

/// A new pseudo-terminal: the end that a program prints to, and ours.
fn terminal() -> Result<(File, File), Failure> {
    // SAFETY: the descriptor is new and nobody else's. The name that ptsname
    // gives is copied before any other call, on this thread alone.
    let (ours, name) = unsafe {
        let fd = posix_openpt(FLAGS);
        if fd < 0 {
            return Err(Failure::new("no pseudo-terminal"));
        }
        let ours = File::from_raw_fd(fd);
        if grantpt(fd) != 0 || unlockpt(fd) != 0 {
            return Err(Failure::new("the pseudo-terminal cannot be opened"));
        }
        let name = ptsname(fd);
        if name.is_null() {
            return Err(Failure::new("the pseudo-terminal has no name"));
        }
        (ours, CStr::from_ptr(name).to_string_lossy().into_owned())
    };
    let theirs = OpenOptions::new().read(true).write(true).open(name)?;
    Ok((theirs, ours))
}

#[derive(Clone, Copy, PartialEq, Eq)]
enum Stream {
    Stdout,
    Stderr,
}

/// Runs the tool with one stream at a terminal: its status, what it wrote there
/// and what it wrote to the other stream.
fn at_terminal(tool: &Tool, asked: &Ask, stream: Stream) -> Result<(i32, String, String), Failure> {
    let (theirs, mut ours) = terminal()?;
    let mut command = tool.command(asked);
    command.stdin(Stdio::null());
    match stream {
        Stream::Stdout => command.stdout(theirs).stderr(Stdio::piped()),
        Stream::Stderr => command.stderr(theirs).stdout(Stdio::piped()),
    };
    let child = command.spawn()?;
    // The command holds our copy of their end.
    drop(command);
    let mut shown = Vec::new();
    let mut buffer = [0; 4096];
    // When the last copy of the other end is closed, reading fails.
    while let Ok(count @ 1..) = ours.read(&mut buffer) {
        shown.extend(&buffer[..count]);
    }
    let output = child.wait_with_output()?;
    let other = match stream {
        Stream::Stdout => output.stderr,
        Stream::Stderr => output.stdout,
    };
    let text = |bytes: Vec<u8>| String::from_utf8_lossy(&bytes).replace("\r\n", "\n");
    Ok((output.status.code().unwrap_or(-1), text(shown), text(other)))
}

pub fn run(tool: &Tool) -> Result<(), Failure> {
    tool.put("t.sheet", paper::T)?;
    tool.put("t.text", text::T)?;
    tool.put("crossing", crate::output::crossing(10, 9))?;
    tool.put("unplaced", [255; 20])?;
    forecasts(tool)?;
    short_runs(tool)?;
    bytes(tool)
}

/// A run that a million trials do not end.
fn forecasts(tool: &Tool) -> Result<(), Failure> {
    let count = trials(9);
    let runs = [
        (
            "route crossing",
            format!("answer 15 width 0 trials {count}\n"),
        ),
        (
            "refit crossing unplaced",
            format!("answer 15 width 0 trials {count} moved 0\n"),
        ),
    ];
    for (line, answer) in runs {
        for budget in ["4294967295", "100000001"] {
            let asked = ask(&format!("{line} --budget {budget}"));
            let (status, shown, other) = at_terminal(tool, &asked, Stream::Stderr)?;
            let lines: Vec<&str> = shown.lines().collect();
            let right = status == 1
                && other == answer
                && lines.len() == 2
                && forecast(lines[0], budget)
                && lines[1].starts_with("trackrouter: 15 unroutable: ");
            must(right, &asked, &shown)?;
        }
        let asked = ask(&format!("{line} --budget 100000000"));
        let (_, shown, other) = at_terminal(tool, &asked, Stream::Stderr)?;
        let silent = shown.lines().count() == 1 && !shown.contains("up to");
        must(silent && other == answer, &asked, &shown)?;
    }
    Ok(())
}

/// Whether the line has the budget, a time, and what a trial takes.
fn forecast(line: &str, budget: &str) -> bool {
    let begin = format!("trackrouter: up to {budget} trials: about ");
    let Some((time, trial)) = line
        .strip_prefix(&begin)
        .and_then(|rest| rest.split_once(" at most ("))
    else {
        return false;
    };
    let number = |text: &str| text.parse::<f64>().is_ok_and(|value| value > 0.0);
    let time_right = match time.split_once(' ') {
        Some((value, "s" | "min" | "h")) => number(value),
        _ => false,
    };
    let trial = trial.strip_suffix(" ns a trial here)");
    time_right && trial.is_some_and(number)
}

/// Runs that take under a million trials, and those without a trial.
fn short_runs(tool: &Tool) -> Result<(), Failure> {
    let large = "--budget 4294967295";
    let runs = [
        (
            format!("route t.sheet {large}"),
            1,
            2,
            "the run takes 10 trials, under a second\n",
        ),
        (
            format!("least t.text {large}"),
            0,
            1,
            "the run takes 16 trials, under a second\n",
        ),
        (format!("route unplaced {large} --bytes"), 1, 1, "2 mark: "),
        ("least t.sheet".to_string(), 0, 0, ""),
    ];
    for (line, status, lines, piece) in runs {
        let asked = ask(&line);
        let (came, shown, _) = at_terminal(tool, &asked, Stream::Stderr)?;
        let right = came == status && shown.lines().count() == lines && shown.contains(piece);
        must(right, &asked, &shown)?;
    }
    // Standard error is a pipe: no line.
    let asked = ask(&format!("least t.sheet {large}"));
    tool.right(&asked, paper::T_LINES)
}

/// Bytes are refused where standard output is a terminal; text is not.
fn bytes(tool: &Tool) -> Result<(), Failure> {
    for line in ["pack t.sheet", "pack t.text", "pack t.sheet unplaced"] {
        let asked = ask(line);
        let (status, shown, other) = at_terminal(tool, &asked, Stream::Stdout)?;
        let said = other.starts_with("trackrouter: ") && other.contains("--out");
        let right = status == 2 && shown.is_empty() && said && other.lines().count() == 1;
        must(right, &asked, &other)?;
        let into = ask(&format!("{line} --out packed"));
        let (status, shown, other) = at_terminal(tool, &into, Stream::Stdout)?;
        must(
            status == 0 && shown.is_empty() && other.is_empty(),
            &into,
            &other,
        )?;
    }
    for line in ["unpack t.sheet", "standard t.sheet"] {
        let asked = ask(line);
        let (status, shown, _) = at_terminal(tool, &asked, Stream::Stdout)?;
        must(status == 0 && shown == text::T, &asked, &shown)?;
    }
    Ok(())
}

fn must(right: bool, asked: &Ask, shown: &str) -> Result<(), Failure> {
    match right {
        true => Ok(()),
        false => Err(Failure::new(format!(
            "{}, at a terminal\n{shown}",
            described(asked)
        ))),
    }
}
