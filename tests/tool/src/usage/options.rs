//! Options and inputs: which go together, and what their values are.

use super::{BUDGET, DEAD, OUT, TICKET, VERBS};
use crate::expected::{Expected, Text};
use crate::failure::Failure;
use crate::run::{ask, told, Ask, Tool};
use sheets::paper;
use std::ffi::OsStr;
use std::os::unix::ffi::OsStrExt;

pub fn run(tool: &Tool) -> Result<(), Failure> {
    options(tool)?;
    numbers(tool)?;
    no_text(tool)?;
    budgets(tool)?;
    orders(tool)
}

fn options(tool: &Tool) -> Result<(), Failure> {
    for (name, _, enough, own) in VERBS {
        for option in [BUDGET, OUT, TICKET, DEAD, "--old"] {
            if !own.contains(&option) {
                let line = format!("{name} {enough} {option} 1");
                tool.wrong(&ask(&line), &["no such option: ", option])?;
            }
        }
        let both = format!("{name} {enough} --bytes --text");
        tool.wrong(&ask(&both), &["--bytes and --text"])?;
    }
    lists(tool)?;
    let two = "check t.sheet right --ticket-text --ticket-bytes";
    tool.wrong(&ask(two), &["--ticket-bytes and --ticket-text"])?;
    tool.wrong(&ask("read t.sheet --bytes=1"), &["--bytes takes no value"])?;
    tool.wrong(&ask("explain t.sheet --old"), &["--old needs a ticket"])?;
    tool.wrong(&ask("draw t.sheet --ticket-text"), &["need a ticket"])?;
    tool.wrong(&ask("check - -"), &["only one input"])?;
    tool.wrong(&ask("refit - -- -"), &["only one input"])?;
    tool.wrong(&ask("remove - - 1"), &["only one input"])?;
    for line in [
        "route t.sheet --out",
        "route t.sheet --out=",
        "pack t.sheet --out -",
    ] {
        tool.wrong(&ask(line), &["--out needs a FILE"])?;
    }
    tool.wrong(
        &ask("pack t.sheet --out a --out b"),
        &["--out is given twice"],
    )?;
    Ok(())
}

/// The list of dead wires and its forms.
fn lists(tool: &Tool) -> Result<(), Failure> {
    tool.put("dead", [5, 0, 1])?;
    for (name, _, enough, own) in VERBS {
        let line = |rest: &str| ask(&format!("{name} {enough} {rest}"));
        let try_help = format!("try trackrouter {name} --help");
        if !own.contains(&DEAD) {
            let unknown = ["no such option: --dead-bytes", &try_help];
            tool.wrong(&line("--dead-bytes"), &unknown)?;
            continue;
        }
        for (rest, complaint) in [
            ("--dead", "--dead needs a FILE"),
            ("--dead=", "--dead needs a FILE"),
            ("--dead dead --dead dead", "--dead is given twice"),
            (
                "--dead dead --dead-bytes --dead-text",
                "--dead-bytes and --dead-text exclude each other",
            ),
            ("--dead-text", "--dead-bytes and --dead-text need --dead"),
            ("--dead-bytes", "--dead-bytes and --dead-text need --dead"),
            ("--dead dead --dead-text=1", "--dead-text takes no value"),
        ] {
            tool.wrong(&line(rest), &[complaint, &try_help])?;
        }
        let twice = format!("{name} - {} --dead -", &enough["t.sheet".len()..]);
        tool.wrong(&ask(&twice), &["only one input", &try_help])?;
    }
    tool.wrong(&ask("check t.sheet - --dead=-"), &["only one input"])?;
    for name in ["pack", "unpack"] {
        let both = format!("{name} t.sheet right --dead dead");
        let complaint = "a ticket and --dead exclude each other; try trackrouter";
        tool.wrong(&ask(&both), &[complaint, name])?;
    }
    Ok(())
}

/// What is no place of a record and no net number; - is no file here.
fn numbers(tool: &Tool) -> Result<(), Failure> {
    for word in ["x", "-", "", "-1", "+1", "1.5", "18446744073709551616"] {
        let place = format!("PLACE is a number from 0 on, not {word};");
        let pieces = [&*place, "try trackrouter record --help"];
        tool.wrong(&behind("record t.sheet", word), &pieces)?;
    }
    for word in ["right", "-", "", "-1", "1.5", "0x1", "4294967296"] {
        let net = format!("NET is a number from 0 to 4294967295, not {word};");
        let pieces = [&*net, "try trackrouter remove --help"];
        tool.wrong(&behind("remove t.sheet right", word), &pieces)?;
    }
    // The number stands last.
    tool.wrong(&ask("remove t.sheet 1 right"), &["NET", "not right;"])
}

/// The line, and behind `--` this word.
fn behind(line: &str, word: &str) -> Ask {
    let mut asked = ask(line);
    asked.words.extend(["--", word].map(str::to_string));
    asked
}

/// Arguments that are no text: as an option they are bad usage, as a file a file.
fn no_text(tool: &Tool) -> Result<(), Failure> {
    let odd = |line: &str, word: &[u8], pieces: &[&str]| {
        let asked = ask(line);
        let mut command = tool.command(&asked);
        let output = command.arg(OsStr::from_bytes(word)).output()?;
        let expected = Expected {
            status: 2,
            stdout: Text::Is(Vec::new()),
            stderr: Text::line(pieces),
        };
        tool.compare(&asked, &output, expected)
    };
    let option = ["trackrouter: the option --", "is no text in UTF-8; try "];
    odd("pack t.sheet", b"--out=a\xFF", &option)?;
    odd("read t.sheet", b"--\xFF", &option)?;
    odd(
        "read",
        b"missing\xFF",
        &["trackrouter: missing", "No such file"],
    )?;
    odd("read --", b"-\xFF", &["trackrouter: -", "No such file"])?;
    let budget = ["trackrouter: --budget is a number from 0 to 4294967295, not 1"];
    odd("route t.sheet --budget", b"1\xFF", &budget)?;
    odd("", b"route\xFF", &["trackrouter: no such verb: route"])?;
    let name = OsStr::from_bytes(b"a\xFF");
    let mut command = tool.command(&ask("pack t.text --out"));
    let written = command.arg(name).output()?;
    let held = std::fs::read(tool.file(name))?;
    match written.status.success() && held == paper::T {
        true => Ok(()),
        false => Err(Failure::new(format!(
            "--out with a name that is no text: {}",
            told(&written)
        ))),
    }
}

fn budgets(tool: &Tool) -> Result<(), Failure> {
    for (name, enough) in [("route", ""), ("least", ""), ("refit", "right")] {
        for bad in [
            "-1",
            "+1",
            "x",
            "1x",
            "1.0",
            "1,000",
            "4294967296",
            "99999999999999999999",
        ] {
            for joined in ["=", " "] {
                let line = format!("{name} t.sheet {enough} --budget{joined}{bad}");
                tool.wrong(
                    &ask(&line),
                    &["--budget is a number from 0 to 4294967295", bad],
                )?;
            }
        }
        let none = format!("{name} t.sheet {enough} --budget");
        tool.wrong(&ask(&none), &["--budget needs a NUMBER"])?;
        let twice = format!("{name} t.sheet {enough} --budget 1 --budget 2");
        tool.wrong(&ask(&twice), &["--budget is given twice"])?;
    }
    Ok(())
}

/// Options before and behind the inputs, `=`, and `--`.
fn orders(tool: &Tool) -> Result<(), Failure> {
    let spent = "answer 16 width 0 trials 9\n";
    for line in [
        "route --budget 9 t.sheet",
        "route t.sheet --budget 9",
        "route --budget=9 t.sheet",
        "route --budget 0000009 -- t.sheet",
        "route --bytes t.sheet --budget=9",
        "route --text t.text --budget=9",
    ] {
        tool.refused(&ask(line), spent, 16)?;
    }
    tool.put("--odd", paper::T)?;
    tool.right(&ask("read -- --odd"), "answer 0 nets 3 entries 6\n")?;
    tool.right(
        &ask("read --bytes --bytes t.sheet"),
        "answer 0 nets 3 entries 6\n",
    )?;
    tool.right(
        &ask("read -- -").fed(paper::T),
        "answer 0 nets 3 entries 6\n",
    )?;
    tool.wrong(&ask("read -- --help"), &["trackrouter: --help: "])
}
