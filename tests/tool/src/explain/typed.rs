//! The line of the text that an explanation speaks of.

use super::found;
use crate::failure::Failure;
use crate::run::{ask, Tool};
use crate::text;

pub fn run(tool: &Tool) -> Result<(), Failure> {
    sheets(tool)?;
    tickets(tool)
}

/// Of a typed sheet.
fn sheets(tool: &Tool) -> Result<(), Failure> {
    let bad = |from: &str, to: &str| {
        let text = text::T.replace(from, to);
        ask("explain -").fed(format!("# typed\n\n{text}"))
    };
    let cases: [(&str, &str, u32, &str); 6] = [
        (
            "chip 3 by 2",
            "chip 3 by 1",
            3,
            "\nline 3 of the sheet: chip 3 by 1\n",
        ),
        (
            "kind subset",
            "kind 9",
            3,
            "\nline 4 of the sheet: kind 9\n",
        ),
        (
            "width 2",
            "width 33 # wide",
            3,
            "\nline 5 of the sheet: width 33 # wide\n",
        ),
        (
            "net 2: 1 5-1",
            "net 2: 1 2-1",
            8,
            "\nline 7 of the sheet: net 2: 1 2-1\n",
        ),
        (
            "net 3: 0 5-0",
            "net 3:",
            5,
            "\nline 8 of the sheet: net 3:\n",
        ),
        (
            "net 3",
            "  net 1",
            9,
            "\nline 8 of the sheet:   net 1: 0 5-0\n",
        ),
    ];
    for (from, to, number, line) in cases {
        tool.expect(&bad(from, to), found(number, &[line]))?;
    }
    for (from, to, line) in [
        (
            "width 2",
            "width 0",
            "\nline 3 of the sheet: width 0\nrule: ",
        ),
        (
            "chip 3",
            "chip 17",
            "\nline 1 of the sheet: chip 17 by 2\nrule: ",
        ),
    ] {
        let text = format!("\u{feff}{}", text::T.replace(from, to));
        tool.expect(&ask("explain -").fed(text), found(3, &[line]))?;
    }
    Ok(())
}

/// Of a ticket in lines.
fn tickets(tool: &Tool) -> Result<(), Failure> {
    let clash = [
        "net 1 (record 0), entry 0 (ticket byte 0)",
        "net 3 (record 2), entry 0 (ticket byte 4)",
        "channel 0, track 0\nline 1 of the ticket: 3 0.0 5.0\nrule: ",
    ];
    let asked = ask("explain t3.sheet -").fed("3 0.0 5.0\n1 0.0 1.0\n2 1.1 5.1\n");
    tool.expect(&asked, found(13, &clash))?;
    let beyond = [
        (
            "# typed\nanswer 0\n1 0.0 1.0\n 2 5.3 1.1\n3 0.2 5.2",
            "\nline 4 of the ticket:  2 5.3 1.1\nrule: ",
        ),
        (
            "\u{feff}2 5.3 1.1 # vent\n1 0.0 1.0\n3 0.2 5.2",
            "\nline 1 of the ticket: 2 5.3 1.1 # vent\nrule: ",
        ),
    ];
    for (lines, line) in beyond {
        let asked = ask("explain t3.text -").fed(lines);
        tool.expect(&asked, found(11, &["net 2", "track 3", line]))?;
    }
    Ok(())
}
