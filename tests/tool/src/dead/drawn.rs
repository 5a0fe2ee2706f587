//! Pictures with dead wires. What they show is read back in the package's own tests.

use crate::expected::{refusal, Expected, Text};
use crate::failure::Failure;
use crate::run::{ask, Tool};

pub fn run(tool: &Tool) -> Result<(), Failure> {
    shown(tool)?;
    alike(tool)
}

/// A picture with these pieces and this number in its title.
fn picture(number: u32, pieces: &[&str]) -> Expected {
    let fault = match number {
        0 => String::new(),
        12 => ": 12 switch".to_string(),
        13 => ": 13 clash".to_string(),
        _ => ": 21 broken".to_string(),
    };
    let title = format!("<title>chip 3 by 2, kind subset, width 3{fault}</title>");
    let mut all = vec!["<svg ", &title, "</svg>\n"];
    all.extend(pieces);
    Expected {
        status: i32::from(number != 0),
        stdout: Text::has(&all),
        stderr: match number {
            0 => Text::Is(Vec::new()),
            number => refusal("draw", number),
        },
    }
}

/// A stripe and crosses for each dead wire, and one key; nets on them are drawn.
fn shown(tool: &Tool) -> Result<(), Failure> {
    tool.put("list", "5.1\n2.0\n")?;
    let dead = [
        "class=\"dead\" data-channel=\"5\" data-track=\"1\"",
        "class=\"cross\" data-channel=\"5\" data-track=\"1\"",
        "class=\"dead\" data-channel=\"2\" data-track=\"0\"",
        "class=\"cross\" data-channel=\"2\" data-track=\"0\"",
        ">dead wire</text>",
    ];
    for sheet in ["t3.sheet", "t3.text"] {
        let line = format!("draw {sheet} --dead list");
        tool.expect(&ask(&line), picture(0, &dead))?;
        for (ticket, number) in [
            (&[0, 0, 1, 1, 2, 2][..], 21),
            (&[0, 0, 255, 255, 2, 2], 0),
            (&[1, 1, 0, 0, 2, 2], 0),
            (&[0, 0, 1, 1, 1, 1], 21),
            (&[0, 0, 0, 0, 0, 0], 13),
            (&[0, 0, 1, 1, 2, 1], 12),
        ] {
            let asked = ask(&format!("draw {sheet} - --dead list")).fed(ticket);
            tool.expect(&asked, picture(number, &dead))?;
        }
    }
    Ok(())
}

/// The same picture from both forms of a list and in any order; that of wires at or
/// above W is the picture without a list.
fn alike(tool: &Tool) -> Result<(), Failure> {
    let drawn = |list: &[u8]| -> Result<Vec<u8>, Failure> {
        let asked = ask("draw t3.sheet right --dead -").fed(list);
        Ok(tool.output(&asked)?.stdout)
    };
    let bare = tool.output(&ask("draw t3.sheet right"))?.stdout;
    let one = drawn(&[5, 0, 1, 2, 0, 0])?;
    let right = drawn(b"2.0\n5.1 # cracked\n")? == one
        && drawn(b"0.3 5.1 2.0 6.31")? == one
        && drawn(b"0.3 6.31")? == bare
        && drawn(b"")? == bare
        && drawn(b"5.1")? != one
        && one != bare;
    match right {
        true => Ok(()),
        false => Err(Failure::new(
            "pictures with dead wires that should be alike differ, or the reverse",
        )),
    }
}
