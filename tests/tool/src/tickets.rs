//! Tickets in both forms: check, pack, unpack and what is wrong with lines.

use crate::failure::Failure;
use crate::run::{ask, Tool};
use crate::text;
use sheets::paper::{self, t_raw};

/// The ticket of m3 in lines, as Route prints them.
const LINES: &str = "1 0.0 1.0\n2 1.1 5.1\n3 0.2 5.2\n";
const TICKET: [u8; 6] = [0, 0, 1, 1, 2, 2];

pub fn run(tool: &Tool) -> Result<(), Failure> {
    tool.put("t3.sheet", t_raw(0, 3).bytes())?;
    tool.put("t3.text", text::of(&t_raw(0, 3).bytes()).expect("a text"))?;
    tool.put("right", TICKET)?;
    tool.put("lines", LINES)?;
    checking(tool)?;
    overruled(tool)?;
    forms(tool)?;
    unplaced(tool)?;
    sizes(tool)?;
    bad_lines(tool)?;
    refused_sheet(tool)
}

fn checking(tool: &Tool) -> Result<(), Failure> {
    for sheet in ["t3.sheet", "t3.text"] {
        for ticket in [
            "right",
            "lines",
            "--ticket-bytes right",
            "--ticket-text lines",
        ] {
            tool.right(&ask(&format!("check {sheet} {ticket}")), "answer 0\n")?;
        }
        let line = format!("check {sheet} -");
        tool.right(&ask(&line).fed(TICKET), "answer 0\n")?;
        tool.right(&ask(&line).fed(LINES), "answer 0\n")?;
        let whole = format!("answer 0 width 3 trials 6\n{LINES}");
        tool.right(&ask(&line).fed(whole), "answer 0\n")?;
        let other = "# by hand\n3 5.2  0.2 # lamp\r\n\n2\t1.1 5.1\n1 1.0 0.0";
        tool.right(&ask(&line).fed(other), "answer 0\n")?;
        let apart = ask(&line).fed("1 0.0 1.1\n2 1.1 5.1\n3 0.2 5.2\n");
        tool.refused(&apart, "answer 12\n", 12)?;
        let clash = ask(&line).fed("1 0.0 1.0\n2 1.0 5.0\n3 0.2 5.2\n");
        tool.refused(&clash, "answer 13\n", 13)?;
        let beyond = ask(&line).fed("1 0.3 1.3\n2 1.1 5.1\n3 0.2 5.2\n");
        tool.refused(&beyond, "answer 11\n", 11)?;
    }
    let input = ask("check - right").fed(text::T);
    tool.refused(&input, "answer 11\n", 11)?;
    let exact = "trackrouter: 12 switch: a joint's tracks are not partners; trackrouter explain says where\n";
    let output = tool.output(&ask("check t3.sheet -").fed([0, 1, 1, 1, 2, 2]))?;
    match output.stderr == exact.as_bytes() {
        true => Ok(()),
        false => Err(Failure::new(crate::run::told(&output))),
    }
}

/// `--ticket-bytes` on lines and `--ticket-text` on bytes.
fn overruled(tool: &Tool) -> Result<(), Failure> {
    let line = "check t3.sheet lines --ticket-bytes";
    tool.refused(&ask(line), "answer 10\n", 10)?;
    let line = "check t3.sheet right --ticket-text";
    tool.wrong(&ask(line), &["trackrouter: right: ", "--ticket-bytes"])?;
    // 50 is the code of a digit, so these bytes are taken for text.
    tool.put("fifty", [0, 0, 1, 1, 2, 50])?;
    let line = "check t3.sheet fifty";
    tool.wrong(&ask(line), &["trackrouter: fifty: ", "--ticket-bytes"])?;
    let line = "check t3.sheet fifty --ticket-bytes";
    tool.refused(&ask(line), "answer 11\n", 11)
}

fn forms(tool: &Tool) -> Result<(), Failure> {
    for sheet in ["t3.sheet", "t3.text"] {
        for ticket in ["right", "lines"] {
            tool.right(&ask(&format!("pack {sheet} {ticket}")), TICKET)?;
            tool.right(&ask(&format!("unpack {sheet} {ticket}")), LINES)?;
        }
    }
    tool.right(
        &ask("pack t3.text -").fed("3 5.2 0.2\n1 1.7 0.9\n2 5.1 1.255"),
        [9, 7, 255, 1, 2, 2],
    )?;
    let odd = "1 0.9 1.7\n2 1.255 5.1\n3 0.2 5.2\n";
    tool.right(&ask("unpack t3.text -").fed([9, 7, 255, 1, 2, 2]), odd)?;
    // Bytes are copied, whatever the sheet is.
    tool.put("zeros", [0; 40])?;
    tool.right(&ask("pack zeros right"), TICKET)?;
    tool.right(&ask("pack zeros -").fed([]), "")
}

fn unplaced(tool: &Tool) -> Result<(), Failure> {
    let partly = "1 0.0 1.0\n2 unplaced\n3 0.2 5.2\n";
    let bytes = [0, 0, 255, 255, 2, 2];
    tool.right(&ask("pack t3.sheet -").fed(partly), bytes)?;
    tool.right(&ask("unpack t3.sheet -").fed(bytes), partly)?;
    tool.refused(&ask("check t3.sheet -").fed(partly), "answer 11\n", 11)?;
    let fewer = "1 0.0 1.0\n3 0.2 5.2\n";
    let missing = ["standard input: ", "2"];
    for line in [
        "check t3.sheet -",
        "pack t3.sheet -",
        "unpack t3.sheet -",
        "explain t3.text -",
    ] {
        tool.wrong(&ask(line).fed(fewer), &missing)?;
    }
    let refitted = format!("answer 0 width 3 trials 6 moved 0\n{LINES}");
    tool.right(&ask("refit t3.sheet -").fed(fewer), &refitted)?;
    tool.right(&ask("refit t3.sheet -").fed(partly), &refitted)?;
    tool.right(&ask("refit t3.text -").fed(bytes), &refitted)
}

/// A ticket of another sheet.
fn sizes(tool: &Tool) -> Result<(), Failure> {
    for ticket in [&[0, 0, 1, 1, 1][..], &[0, 0, 1, 1, 1, 0, 0], &[]] {
        tool.refused(&ask("check t3.sheet -").fed(ticket), "answer 10\n", 10)?;
        tool.refused(&ask("unpack t3.sheet -").fed(ticket), "", 10)?;
        tool.refused(&ask("draw t3.sheet -").fed(ticket), "", 10)?;
        let line = "answer 10 width 0 trials 0 moved 0\n";
        tool.refused(&ask("refit t3.sheet -").fed(ticket), line, 10)?;
        tool.right(&ask("pack t3.sheet -").fed(ticket), ticket)?;
    }
    Ok(())
}

fn bad_lines(tool: &Tool) -> Result<(), Failure> {
    let bad = |from: &str, to: &str| LINES.replace(from, to);
    let texts = [
        (bad("2 1.1 5.1", "4 1.1 5.1"), "line 2"),
        (bad("2 1.1 5.1", "1 0.0 1.0"), "line 2"),
        (bad("2 1.1 5.1", "2 1.1 6.1"), "line 2"),
        (bad("2 1.1 5.1", "2 1.1 1.1"), "line 2"),
        (bad("2 1.1 5.1", "2 1.1"), "line 2"),
        (bad("2 1.1 5.1", "2 1.1 5.256"), "line 2"),
        (bad("2 1.1 5.1", "2 1.1 5"), "line 2"),
        (bad("2 1.1 5.1", "2 1.1 5.x"), "line 2"),
        (bad("2 1.1 5.1", "two 1.1 5.1"), "line 2"),
        (bad("2 1.1 5.1", "2 placed"), "line 2"),
        (format!("answer 15 width 0 trials 10\n{LINES}"), "line 1"),
        (format!("answer 16 width 0 trials 9\n{LINES}"), "line 1"),
        (format!("answer 17\n{LINES}"), "line 1"),
        (format!("{LINES}answer 0\n"), "line 4"),
    ];
    for (text, piece) in texts {
        for line in [
            "check t3.sheet -",
            "refit t3.sheet -",
            "remove t3.sheet - 2",
            "pack t3.sheet -",
            "unpack t3.sheet -",
            "explain t3.sheet -",
            "draw t3.sheet -",
            "explain --old t3.sheet -",
        ] {
            tool.wrong(&ask(line).fed(&text), &["standard input: ", piece])?;
        }
    }
    Ok(())
}

/// Lines cannot be matched with a sheet that the library refuses: its number is
/// the answer, whatever the lines are.
fn refused_sheet(tool: &Tool) -> Result<(), Failure> {
    let mut joint = t_raw(0, 3);
    joint.records[1].entries[1].1 = 1;
    tool.put("joint", joint.bytes())?;
    tool.put(
        "crowd",
        text::of(&paper::same_channel(65, 0, 2).bytes()).expect("a text"),
    )?;
    tool.put("nonsense", "7 bogus\n")?;
    for (sheet, number) in [("joint", 8), ("crowd", 4)] {
        for ticket in ["lines", "nonsense", "right"] {
            let lines = ticket != "right";
            let inputs = format!("{sheet} {ticket}");
            let answer = format!("answer {number}\n");
            tool.refused(&ask(&format!("check {inputs}")), &answer, number)?;
            tool.refused(&ask(&format!("remove {inputs} 9")), &answer, number)?;
            let answer = format!("answer {number} width 0 trials 0 moved 0\n");
            tool.refused(&ask(&format!("refit {inputs}")), &answer, number)?;
            tool.refused(&ask(&format!("unpack {inputs}")), "", number)?;
            tool.refused(&ask(&format!("draw {inputs}")), "", number)?;
            if lines {
                tool.refused(&ask(&format!("pack {inputs}")), "", number)?;
            }
        }
    }
    Ok(())
}
