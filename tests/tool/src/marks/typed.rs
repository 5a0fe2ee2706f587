//! The mark as it is typed, well and badly, and the lines that explanations name.

use super::{BYTES, TYPED};
use crate::explain::found;
use crate::failure::Failure;
use crate::run::{ask, Tool};
use crate::text;
use sheets::paper;

pub fn run(tool: &Tool) -> Result<(), Failure> {
    typing(tool)?;
    bad_typing(tool)?;
    typed_places(tool)
}

/// Other ways to type a mark; the first one is not written.
fn typing(tool: &Tool) -> Result<(), Failure> {
    for mark in [
        "mark  57\t49  # suppliers\r",
        "\n# numbers of 32 bits\n\nmark 57 49#",
        " mark 57 49 ",
    ] {
        let typed = TYPED.replace("mark 57 49", mark);
        tool.right(&ask("pack -").fed(&typed), BYTES)?;
        tool.right(&ask("unpack -").fed(typed), TYPED)?;
    }
    let marked = format!("\u{feff}{TYPED}");
    tool.right(&ask("pack -").fed(marked), BYTES)?;
    let zeros = TYPED.replace("net 65535", "net 0000000065535");
    tool.right(&ask("pack -").fed(zeros), BYTES)?;
    let first = format!("mark 57 48\n{}", text::T);
    tool.right(&ask("pack -").fed(&first), paper::T)?;
    for verb in ["unpack", "standard"] {
        tool.right(&ask(&format!("{verb} -")).fed(&first), text::T)?;
    }
    Ok(())
}

/// What does not parse, and its line.
fn bad_typing(tool: &Tool) -> Result<(), Failure> {
    let mut cases = Vec::new();
    for mark in [
        "mark",
        "mark 57",
        "mark 49",
        "mark 5749",
        "mark 49 57",
        "mark 57 4A",
        "mark 57 47",
        "mark 57 49 1",
        "mark 0x57 0x49",
        "mark 87 73",
        "mark long",
    ] {
        cases.push((TYPED.replace("mark 57 49", mark), 1));
    }
    let twice = TYPED.replace("chip", "mark 57 49\nchip");
    let after = TYPED
        .replace("mark 57 49\n", "")
        .replace("kind", "mark 57 49\nkind");
    let last = format!("{}mark 57 49\n", TYPED.replace("mark 57 49\n", ""));
    cases.push((twice, 2));
    cases.push((after, 2));
    // Its long numbers come first.
    cases.push((last, 4));
    for number in ["4294967296", "18446744073709551616", "-1", "0x10000"] {
        cases.push((TYPED.replace("net 65536", &format!("net {number}")), 6));
    }
    for (typed, line) in cases {
        for verb in ["read", "pack", "explain", "standard", "draw"] {
            let place = format!("trackrouter: standard input: line {line}: ");
            tool.wrong(&ask(&format!("{verb} -")).fed(&typed), &[&place])?;
        }
    }
    // Under the first mark a number over 65535 has no room.
    let why = "net number 4294967295 is over 65535";
    for (mark, line) in [("", "line 4: "), ("mark 57 48\n", "line 5: ")] {
        let typed = TYPED.replace("mark 57 49\n", mark);
        tool.wrong(&ask("pack -").fed(typed), &["standard input: ", line, why])?;
    }
    Ok(())
}

/// The lines of a typed sheet count from the mark on.
fn typed_places(tool: &Tool) -> Result<(), Failure> {
    for (from, to, number, line) in [
        ("by 2", "by 1", 3, "\nline 2 of the sheet: chip 3 by 1\n"),
        (
            "width 3",
            "width 33",
            3,
            "\nline 4 of the sheet: width 33\n",
        ),
        (
            "1 5-1",
            "1 2-1",
            8,
            "\nline 6 of the sheet: net 65536: 1 2-1\n",
        ),
        (
            "net 65535",
            "net 4294967295",
            9,
            "\nline 7 of the sheet: net 4294967295: 0 5-0\n",
        ),
    ] {
        let typed = TYPED.replace(from, to);
        tool.expect(&ask("explain -").fed(typed), found(number, &[line]))?;
    }
    Ok(())
}
