//! A net is taken out of a ticket: by hand on T at W 3, and against the model.

use crate::expected::{refusal, Expected, Text};
use crate::failure::Failure;
use crate::lines;
use crate::run::{ask, told, Tool};
use crate::text;
use sheets::paper::{self, t_raw};
use sheets::Raw;

const TICKET: [u8; 6] = [0, 0, 1, 1, 2, 2];
const LINES: [&str; 3] = ["1 0.0 1.0\n", "2 1.1 5.1\n", "3 0.2 5.2\n"];

pub fn run(tool: &Tool) -> Result<(), Failure> {
    tool.put("t3.sheet", t_raw(0, 3).bytes())?;
    tool.put("t3.text", text::of(&t_raw(0, 3).bytes()).expect("a text"))?;
    tool.put("right", TICKET)?;
    tool.put("lines", LINES.concat())?;
    each_net(tool)?;
    unplaced(tool)?;
    again(tool)?;
    by_number(tool)?;
    strangers(tool)?;
    refused(tool)
}

/// What is printed with these lines left.
fn left(lines: &[&str]) -> String {
    format!("answer 0\n{}", lines.concat())
}

/// The other nets keep their lines.
fn each_net(tool: &Tool) -> Result<(), Failure> {
    let [one, two, three] = LINES;
    for sheet in ["t3.sheet", "t3.text"] {
        for (net, printed) in [
            ("1", left(&[two, three])),
            ("2", left(&[one, three])),
            ("3", left(&[one, two])),
            ("0003", left(&[one, two])),
        ] {
            for ticket in ["right", "lines"] {
                let line = format!("remove {sheet} {ticket} {net}");
                tool.right(&ask(&line), &printed)?;
            }
            let line = format!("remove {sheet} - {net}");
            let routed = format!("answer 0 width 3 trials 6\n{}", LINES.concat());
            tool.right(&ask(&line).fed(routed), &printed)?;
        }
    }
    Ok(())
}

/// Nets that are unplaced before: by their bytes, by the word, without a line.
fn unplaced(tool: &Tool) -> Result<(), Failure> {
    let [one, two, three] = LINES;
    let tickets: [&[u8]; 3] = [
        &[0, 0, 255, 255, 2, 2],
        b"3 5.2 0.2\n2 unplaced\n1 0.0 1.0\n",
        b"1 0.0 1.0\n3 0.2 5.2\n",
    ];
    for ticket in tickets {
        let out = |net: &str| ask(&format!("remove t3.text - {net}")).fed(ticket);
        tool.right(&out("1"), left(&[three]))?;
        tool.right(&out("2"), left(&[one, three]))?;
        tool.right(&out("3"), left(&[one]))?;
    }
    let last = ask("remove t3.sheet - 2").fed(two);
    tool.right(&last, left(&[]))?;
    tool.right(&ask("remove t3.sheet - 2").fed([255; 6]), left(&[]))
}

/// What is printed is read again: by remove, by refit and by draw; with `--out`
/// the bytes are written besides. The other verbs miss the net's line.
fn again(tool: &Tool) -> Result<(), Failure> {
    let [one, two, three] = LINES;
    let without_2 = left(&[one, three]);
    let asked = ask("remove t3.text - 1").fed(&without_2);
    tool.right(&asked, left(&[three]))?;
    let none = left(&[]);
    tool.right(&ask("remove t3.sheet - 3").fed(left(&[three])), &none)?;

    // m3's trials: net 2 tries 0 and 1, net 3 tries 0, 1 and 2.
    let refitted = format!("answer 0 width 3 trials 6 moved 0\n{}", LINES.concat());
    tool.right(&ask("refit t3.sheet -").fed(&without_2), &refitted)?;
    tool.right(&ask("refit t3.sheet -").fed(&none), &refitted)?;
    let drawn = tool.output(&ask("draw t3.sheet -").fed(&without_2))?.stdout;
    let partly = [0, 0, 255, 255, 2, 2];
    tool.right(&ask("draw t3.sheet -").fed(partly), drawn)?;
    for verb in ["check", "pack", "unpack"] {
        let asked = ask(&format!("{verb} t3.sheet -")).fed(&without_2);
        tool.wrong(&asked, &["standard input: ", "net 2 has no line"])?;
    }

    tool.right(&ask("remove t3.sheet lines 2 --out left"), &without_2)?;
    if tool.get("left")? != partly {
        return Err(Failure::new("--out has not the ticket's bytes"));
    }
    tool.right(&ask("refit t3.text left"), &refitted)?;
    let all = format!("{one}2 unplaced\n{three}");
    tool.right(&ask("unpack t3.text left"), all)?;

    // Without net 2 in the sheet, it is a full ticket.
    let mut fewer = t_raw(0, 3);
    fewer.records.remove(1);
    fewer.settle();
    tool.put("fewer", fewer.bytes())?;
    tool.right(&ask("check fewer -").fed(without_2), "answer 0\n")?;
    let back = ask("remove t3.sheet - 3").fed(LINES.concat());
    tool.right(&back, left(&[one, two]))
}

/// The net is found by its number, which need not rise with its place.
fn by_number(tool: &Tool) -> Result<(), Failure> {
    let mut raw = t_raw(0, 3);
    (raw.records[0].number, raw.records[2].number) = (65535, 0);
    tool.put("numbers", raw.bytes())?;
    let [one, two, three] = ["65535 0.0 1.0\n", "2 1.1 5.1\n", "0 0.2 5.2\n"];
    tool.right(&ask("remove numbers right 65535"), left(&[two, three]))?;
    tool.right(&ask("remove numbers right 2"), left(&[one, three]))?;
    tool.right(&ask("remove numbers right 0"), left(&[one, two]))?;
    tool.refused(&ask("remove numbers right 1"), "answer 17\n", 17)
}

fn strangers(tool: &Tool) -> Result<(), Failure> {
    tool.put("kept", "kept")?;
    for net in ["0", "4", "65537", "65538", "16777217", "4294967295"] {
        for inputs in [
            "t3.sheet right",
            "t3.text lines",
            "t3.sheet lines --out kept",
        ] {
            let asked = ask(&format!("remove {inputs} {net}"));
            tool.refused(&asked, "answer 17\n", 17)?;
        }
    }
    if tool.get("kept")? != b"kept" {
        return Err(Failure::new("a refused remove wrote its file"));
    }
    tool.put("none", Raw::new(3, 2, 0, 2, Vec::new()).bytes())?;
    tool.refused(&ask("remove none - 0").fed([]), "answer 17\n", 17)?;
    let exact = "trackrouter: 17 stranger: the sheet has no net of this number; trackrouter unpack shows its nets\n";
    let output = tool.output(&ask("remove t3.sheet right 9"))?;
    match output.stderr == exact.as_bytes() {
        true => Ok(()),
        false => Err(Failure::new(told(&output))),
    }
}

/// The ticket is judged as it is given, the sheet before it; a stranger too.
fn refused(tool: &Tool) -> Result<(), Failure> {
    let cases: [(&[u8], u32); 7] = [
        (&[0, 0, 1, 1, 2], 10),
        (&[], 10),
        (&[0, 0, 1, 1, 2, 3], 11),
        (&[0, 0, 1, 1, 255, 2], 11),
        (&[255, 255, 1, 2, 2, 2], 12),
        (&[255, 255, 1, 1, 1, 1], 13),
        (b"1 0.0 1.0\n2 1.0 5.0\n", 13),
    ];
    for (ticket, number) in cases {
        for net in [3, 4] {
            let asked = ask(&format!("remove t3.sheet - {net}")).fed(ticket);
            tool.refused(&asked, &format!("answer {number}\n"), number)?;
        }
    }
    tool.put("t.sheet", paper::T)?;
    tool.refused(&ask("remove t.sheet lines 3"), "answer 11\n", 11)
}

/// The model's answer to a net that is taken out. A ticket in lines may lack
/// those of its unplaced nets.
pub fn by_model(
    tool: &Tool,
    sheet: &[u8],
    ticket: &[u8],
    net: u32,
    typed: bool,
) -> Result<(), Failure> {
    let mut out = [0; 2048];
    let number = model::remove(sheet, ticket, net, &mut out);
    let left = match number {
        0 => placed(sheet, &out[..ticket.len()]).expect("a ticket"),
        _ => Vec::new(),
    };
    let expected = Expected {
        status: i32::from(number != 0),
        stdout: Text::Is(format!("answer {number}\n{}", left.concat()).into()),
        stderr: match number {
            0 => Text::Is(Vec::new()),
            number => refusal("remove", number),
        },
    };
    let forms = (text::of(sheet), placed(sheet, ticket));
    let line = match forms {
        (Some(sheet), Some(lines)) if typed => {
            tool.put("case.text", sheet)?;
            tool.put("case.lines", lines.concat())?;
            format!("remove case.text case.lines {net} --ticket-text")
        }
        _ => {
            tool.put("case.sheet", sheet)?;
            tool.put("case.ticket", ticket)?;
            format!("remove case.sheet case.ticket {net} --bytes --ticket-bytes")
        }
    };
    tool.expect(&ask(&line), expected)
}

/// The lines of the placed nets.
pub fn placed(sheet: &[u8], ticket: &[u8]) -> Option<Vec<String>> {
    let mut lines = lines::of(sheet, ticket)?;
    lines.retain(|line| !line.ends_with(" unplaced\n"));
    Some(lines)
}
