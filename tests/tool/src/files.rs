//! Files that are missing, unreadable, empty, too large or no sheet.

use crate::failure::Failure;
use crate::run::{ask, Tool};
use crate::text;
use sheets::paper;
use std::fs::{self, File};

/// The most bytes that the tool reads of a file.
const LARGEST: u64 = 16_000_000;

pub fn run(tool: &Tool) -> Result<(), Failure> {
    tool.put("t.sheet", paper::T)?;
    tool.put("right", [0, 0, 1, 1, 2, 2])?;
    fs::create_dir(tool.file("folder"))?;
    unreadable(tool)?;
    sizes(tool)?;
    no_sheets(tool)?;
    bad_text(tool)
}

/// Every verb's line with this sheet in place of its own.
fn every_verb(sheet: &str) -> Vec<String> {
    let mut lines: Vec<String> = [
        "read", "route", "least", "standard", "pack", "unpack", "explain", "draw",
    ]
    .map(|verb| format!("{verb} {sheet}"))
    .into();
    lines.push(format!("record {sheet} 0"));
    lines.push(format!("remove {sheet} right 1"));
    for verb in ["check", "refit", "pack", "unpack", "explain", "draw"] {
        lines.push(format!("{verb} {sheet} right"));
    }
    lines
}

fn unreadable(tool: &Tool) -> Result<(), Failure> {
    // The memory of a process cannot be read from its start.
    let names = [
        ("missing", "No such file"),
        ("folder", "Is a directory"),
        ("right/below", "Not a directory"),
        ("/proc/self/mem", ""),
    ];
    for (name, reason) in names {
        let named = format!("trackrouter: {name}: ");
        for line in every_verb(name) {
            tool.wrong(&ask(&line), &[&named, reason])?;
        }
        for verb in ["check", "refit", "pack", "unpack", "explain", "draw"] {
            let line = format!("{verb} t.sheet {name}");
            tool.wrong(&ask(&line), &[&named, reason])?;
        }
        let line = format!("remove t.sheet {name} 1");
        tool.wrong(&ask(&line), &[&named, reason])?;
    }
    Ok(())
}

fn sizes(tool: &Tool) -> Result<(), Failure> {
    File::create(tool.file("largest"))?.set_len(LARGEST)?;
    File::create(tool.file("huge"))?.set_len(LARGEST + 1)?;
    tool.put("empty", [])?;
    tool.put("long", vec![0x57; 20_000])?;
    let counts = "answer 1 nets 0 entries 0\n";
    for name in ["empty", "largest", "--bytes long"] {
        tool.refused(&ask(&format!("read {name}")), counts, 1)?;
    }
    tool.refused(&ask("read -"), counts, 1)?;
    let too_large = ["trackrouter: huge: ", "over 16 MB"];
    for line in ["read huge", "check t.sheet huge", "pack --text huge"] {
        tool.wrong(&ask(line), &too_large)?;
    }
    tool.refused(&ask("check t.sheet largest"), "answer 10\n", 10)?;
    tool.refused(&ask("check t.sheet empty"), "answer 10\n", 10)?;
    let endless = ["trackrouter: /dev/zero: ", "over 16 MB"];
    tool.wrong(&ask("draw /dev/zero"), &endless)?;
    fs::remove_file(tool.file("largest"))?;
    fs::remove_file(tool.file("huge"))?;
    Ok(())
}

/// Bytes that are no sheet.
fn no_sheets(tool: &Tool) -> Result<(), Failure> {
    tool.put("rubbish", [0x80, 0xFE, 0x0D, 0xFF].repeat(10))?;
    let not_utf8 = [
        "trackrouter: rubbish: byte 0 is no text in UTF-8",
        "(--bytes reads it as bytes)\n",
    ];
    for line in every_verb("rubbish") {
        tool.wrong(&ask(&line), &not_utf8)?;
    }
    let counts = |number| format!("answer {number} nets 0 entries 0\n");
    tool.refused(&ask("read rubbish --bytes"), &counts(2), 2)?;
    tool.put("zeros", [0; 40])?;
    tool.refused(&ask("read zeros"), &counts(2), 2)?;
    tool.refused(&ask("read -").fed([0; 11]), &counts(1), 1)?;
    tool.refused(&ask("record zeros 0"), "offset 0 length 0\n", 2)?;
    tool.refused(&ask("standard zeros"), "", 2)?;
    for verb in ["unpack", "draw"] {
        tool.refused(&ask(&format!("{verb} zeros")), "", 2)?;
        tool.refused(&ask(&format!("{verb} zeros right")), "", 2)?;
    }
    // A ticket that is text for the tool and cannot be.
    tool.put("odd", b"1 0.0\xFF")?;
    tool.wrong(
        &ask("check t.sheet odd"),
        &[
            "trackrouter: odd: byte 5 is no text in UTF-8",
            "(--ticket-bytes reads it as bytes)\n",
        ],
    )?;
    tool.refused(&ask("check zeros odd"), "answer 2\n", 2)
}

/// A text with one bad line: its number, the file's name, one line.
fn bad_text(tool: &Tool) -> Result<(), Failure> {
    let bad = |from: &str, to: &str| text::T.replace(from, to);
    let texts = [
        (bad("chip 3 by 2", "chip 3 to 2"), "line 1"),
        (bad("chip 3 by 2", "ship 3 by 2"), "ship"),
        (bad("chip 3 by 2", "chip 3 by 256"), "line 1"),
        (bad("kind subset", "kind subsets"), "line 2"),
        (bad("kind subset\n", ""), "line 2"),
        (
            bad("kind subset", "kind rows 0+i 0+i 0+i 0+i 0+i"),
            "line 2",
        ),
        (
            bad("kind subset", "kind rows 0+i 0+i 0+i 0+i 0+i 32+i"),
            "line 2",
        ),
        (bad("width 2", "width x"), "line 3"),
        (bad("width 2", "width -2"), "line 3"),
        (bad("width 2", "width 2 2"), "line 3"),
        (bad("net 2: 1 5-1", "net 2 1 5-1"), "line 5"),
        (bad("net 2: 1 5-1", "net 2: 1 5-4"), "line 5"),
        (bad("net 2: 1 5-1", "net 65536: 1 5-1"), "line 5"),
        (bad("net 2: 1 5-1", "net 2: 1 65536-1"), "line 5"),
        (bad("net 2: 1 5-1", "net 2: 1 5-1-1"), "line 5"),
        (bad("net 3", "knot 3"), "knot"),
        (bad("net 3", "\x1B[1m 3"), "line 6"),
        (bad("net 3: 0 5-0", "width 3"), "line 6"),
        ("# nothing\n".to_string(), ""),
        ("\n".to_string(), ""),
        ("a".repeat(100_000), ""),
    ];
    for (text, piece) in texts {
        tool.put("bad", &text)?;
        for line in [
            "read bad",
            "standard bad",
            "pack bad",
            "explain bad",
            "check bad right",
        ] {
            tool.wrong(&ask(line), &["trackrouter: bad: ", piece])?;
        }
        tool.wrong(&ask("least -").fed(&text), &["standard input: ", piece])?;
    }
    Ok(())
}
