//! Route, Least, Refit and Standard: what they print and write, and where that
//! cannot go.

use crate::expected::{Expected, Text};
use crate::failure::{shown, Failure};
use crate::run::{ask, told, Tool};
use crate::text;
use sheets::paper::{self, t_raw};
use sheets::{Design, Grid, Net};
use std::fs::{self, OpenOptions};
use std::io;

pub fn run(tool: &Tool) -> Result<(), Failure> {
    tool.put("t.sheet", paper::T)?;
    tool.put("t.text", text::T)?;
    tool.put("t3.sheet", t_raw(0, 3).bytes())?;
    tool.put("crossing", crossing(10, 9))?;
    written(tool)?;
    untouched(tool)?;
    instead(tool)?;
    unwritable(tool)?;
    closed(tool)?;
    budgets(tool)
}

/// Nets like T's three in turn: any two share a channel, so that no two can have
/// the same track, and no channel carries them all.
pub fn crossing(nets: u32, width: u8) -> Vec<u8> {
    let pairs = [[0, 1], [1, 5], [0, 5]];
    let net = |n: u32| Net::chain(n + 1, &pairs[n as usize % 3]);
    let design = Design::new(Grid::new(3, 2), 0, width, (0..nets).map(net).collect());
    design.list().bytes()
}

/// The trials of the search at a width that is too small for so many crossing
/// nets. With d nets placed the next one tries every track, and there are
/// W·(W−1)·…·(W−d+1) ways to place d of them. For T, 3 nets at W 2, it is m1's 10.
pub fn trials(width: u32) -> u32 {
    let mut ways = 1;
    let mut sum = 1;
    for placed in 0..width {
        ways *= width - placed;
        sum += ways;
    }
    sum * width
}

/// `--out` besides: the ticket's bytes.
fn written(tool: &Tool) -> Result<(), Failure> {
    let lines = "1 0.0 1.0\n2 1.1 5.1\n3 0.2 5.2\n";
    let runs = [
        ("route t3.sheet", "answer 0 width 3 trials 6\n"),
        ("least t.text", "answer 0 width 3 trials 16\n"),
        ("refit t3.sheet old", "answer 0 width 3 trials 6 moved 0\n"),
    ];
    tool.put("old", [0, 0, 255, 255, 255, 255])?;
    for (line, first) in runs {
        for out in ["--out ticket", "--out=ticket", "--out ./ticket"] {
            let asked = ask(&format!("{line} {out}"));
            tool.right(&asked, format!("{first}{lines}"))?;
            holds(tool, "ticket", &[0, 0, 1, 1, 2, 2])?;
            fs::remove_file(tool.file("ticket"))?;
        }
        tool.right(&ask(line), format!("{first}{lines}"))?;
        let piped = line.replace("t3.sheet", "-");
        tool.right(
            &ask(&piped).fed(t_raw(0, 3).bytes()),
            format!("{first}{lines}"),
        )?;
    }
    let none = sheets::Raw::new(3, 2, 0, 2, Vec::new()).bytes();
    let asked = ask("route - --budget 0 --out ticket").fed(none);
    tool.right(&asked, "answer 0 width 2 trials 0\n")?;
    holds(tool, "ticket", &[])
}

/// The file has these bytes.
pub fn holds(tool: &Tool, name: &str, bytes: &[u8]) -> Result<(), Failure> {
    let held = tool.get(name)?;
    match held == bytes {
        true => Ok(()),
        false => Err(Failure::new(format!("{name} holds {}", shown(&held)))),
    }
}

/// A refusal leaves the file alone.
fn untouched(tool: &Tool) -> Result<(), Failure> {
    tool.put("kept", "kept")?;
    let answer = "answer 15 width 0 trials 10\n";
    tool.refused(&ask("route t.sheet --out kept"), answer, 15)?;
    let answer = "answer 16 width 0 trials 15\n";
    tool.refused(&ask("least t.sheet --out kept --budget 15"), answer, 16)?;
    let answer = "answer 13 width 0 trials 0 moved 0\n";
    let asked = ask("refit t3.sheet - --out kept").fed([0; 6]);
    tool.refused(&asked, answer, 13)?;
    tool.refused(&ask("standard - --out kept").fed([0; 40]), "", 2)?;
    tool.refused(&ask("unpack - --out kept").fed([0; 40]), "", 2)?;
    tool.refused(&ask("draw - --out kept").fed([0; 40]), "", 2)?;
    tool.refused(&ask("draw t3.sheet - --out kept").fed([0; 5]), "", 10)?;
    tool.wrong(&ask("pack - --out kept").fed("chip"), &["standard input"])?;
    tool.refused(
        &ask("route t.sheet --out fresh"),
        "answer 15 width 0 trials 10\n",
        15,
    )?;
    if tool.file("fresh").exists() {
        return Err(Failure::new("a refused route wrote its file"));
    }
    holds(tool, "kept", b"kept")
}

/// `--out` of pack, unpack and draw: nothing goes to standard output.
fn instead(tool: &Tool) -> Result<(), Failure> {
    tool.right(&ask("pack t.text --out result"), "")?;
    holds(tool, "result", &paper::T)?;
    tool.right(&ask("unpack result --out result"), "")?;
    holds(tool, "result", text::T.as_bytes())?;
    tool.put("lines", "1 0.0 1.0\n2 1.1 5.1\n3 unplaced\n")?;
    tool.right(&ask("pack t.sheet lines --out result"), "")?;
    holds(tool, "result", &[0, 0, 1, 1, 255, 255])?;
    tool.right(&ask("unpack t.sheet result --out result"), "")?;
    holds(tool, "result", b"1 0.0 1.0\n2 1.1 5.1\n3 unplaced\n")?;
    let drawn = tool.output(&ask("draw t.sheet"))?.stdout;
    tool.right(&ask("draw t.sheet --out result"), "")?;
    holds(tool, "result", &drawn)
}

fn unwritable(tool: &Tool) -> Result<(), Failure> {
    fs::create_dir_all(tool.file("folder"))?;
    for name in ["folder", "nowhere/ticket"] {
        let named = format!("trackrouter: {name}: ");
        for line in ["pack t.text", "unpack t.sheet", "draw t.sheet"] {
            let asked = ask(&format!("{line} --out {name}"));
            tool.wrong(&asked, &[&named])?;
        }
        let expected = Expected {
            status: 2,
            stdout: Text::has(&["answer 0 width 3 trials 16\n1 0.0 1.0\n"]),
            stderr: Text::line(&[&named]),
        };
        let asked = ask(&format!("least t.sheet --out {name}"));
        tool.expect(&asked, expected)?;
        let expected = Expected {
            status: 2,
            stdout: Text::Is(b"answer 0\n".to_vec()),
            stderr: Text::line(&[&named]),
        };
        let asked = ask(&format!("remove t3.sheet - 2 --out {name}"));
        tool.expect(&asked.fed("2 unplaced"), expected)?;
        let expected = Expected {
            status: 2,
            stdout: Text::Is(text::T.into()),
            stderr: Text::line(&[&named]),
        };
        let asked = ask(&format!("standard t.sheet --out {name}"));
        tool.expect(&asked, expected)?;
    }
    Ok(())
}

/// Standard output that is closed early, or that is full.
fn closed(tool: &Tool) -> Result<(), Failure> {
    tool.put("all", sheets::extremes::alike(64, 32, 2, 32).list().bytes())?;
    tool.put("ticket", [0, 0, 1, 1, 2, 2])?;
    let runs = [
        ("read all", 0),
        ("unpack all", 0),
        ("pack all", 0),
        ("draw all", 0),
        ("least t.sheet", 0),
        ("route t.sheet", 1),
        ("remove t3.sheet ticket 3", 0),
        ("remove t3.sheet ticket 4", 1),
        ("standard all", 0),
        ("explain t.sheet", 0),
        ("--help", 0),
        ("route --help", 0),
    ];
    for (line, status) in runs {
        let asked = ask(line);
        let (reader, writer) = io::pipe()?;
        drop(reader);
        let output = tool.command(&asked).stdout(writer).output()?;
        if output.status.code() != Some(status) {
            return Err(Failure::new(format!("{line}, closed: {}", told(&output))));
        }
        let full = OpenOptions::new().write(true).open("/dev/full")?;
        let output = tool.command(&asked).stdout(full).output()?;
        let expected = Expected {
            status: 2,
            stdout: Text::Is(Vec::new()),
            stderr: Text::line(&["trackrouter: standard output: "]),
        };
        tool.compare(&asked, &output, expected)?;
    }
    Ok(())
}

/// The default budget, and budgets at and below what a run needs.
fn budgets(tool: &Tool) -> Result<(), Failure> {
    let route = trials(9);
    // Of 10 crossing nets a channel carries 7, so that Least begins at width 7;
    // at width 10 net n takes track n-1 with its trial n.
    let least = trials(7) + trials(8) + route + 55;
    let stacked = paper::same_channel(33, 0, 2).bytes();
    let overloaded = "answer 15 width 0 trials 0\n";
    tool.refused(&ask("least - --budget 0").fed(stacked), overloaded, 15)?;
    let default = "answer 16 width 0 trials 1000000\n";
    let none = |number, trials| format!("answer {number} width 0 trials {trials}\n");
    tool.refused(&ask("route crossing"), default, 16)?;
    tool.refused(&ask("least crossing"), default, 16)?;
    let budget = |verb: &str, budget: u32| ask(&format!("{verb} crossing --budget {budget}"));
    tool.refused(&budget("route", route), &none(15, route), 15)?;
    tool.refused(&budget("route", route - 1), &none(16, route - 1), 16)?;
    tool.refused(&budget("route", u32::MAX), &none(15, route), 15)?;
    tool.refused(&budget("least", least - 1), &none(16, least - 1), 16)?;
    let mut found = format!("answer 0 width 10 trials {least}\n");
    for net in 0..10 {
        let (a, b) = [(0, 1), (1, 5), (0, 5)][net % 3];
        found += &format!("{} {a}.{net} {b}.{net}\n", net + 1);
    }
    tool.right(&budget("least", least), &found)?;
    tool.right(&budget("least", u32::MAX), &found)
}
