//! Pictures: what is drawn, what is not, and with which status. What the picture
//! shows is read back in the package's own tests.

use crate::expected::{refusal, Expected, Text};
use crate::failure::Failure;
use crate::run::{ask, Tool};
use crate::text;
use sheets::extremes;
use sheets::paper::{self, t_raw};

pub fn run(tool: &Tool) -> Result<(), Failure> {
    tool.put("t.sheet", paper::T)?;
    tool.put("t3.sheet", t_raw(0, 3).bytes())?;
    tool.put("t3.text", text::of(&t_raw(0, 3).bytes()).expect("a text"))?;
    tool.put("right", [0, 0, 1, 1, 2, 2])?;
    tool.put(
        "lines",
        "answer 0 width 3 trials 6\n1 0.0 1.0\n2 1.1 5.1\n3 0.2 5.2\n",
    )?;
    drawn(tool)?;
    alike(tool)?;
    wrong_tickets(tool)
}

/// A whole picture, with this status.
fn picture(number: u32) -> Expected {
    Expected {
        status: i32::from(number != 0),
        stdout: Text::has(&["<svg ", "xmlns=\"http://www.w3.org/2000/svg\"", "</svg>\n"]),
        stderr: match number {
            0 => Text::Is(Vec::new()),
            number => refusal("draw", number),
        },
    }
}

fn drawn(tool: &Tool) -> Result<(), Failure> {
    for sheet in ["t3.sheet", "t3.text"] {
        for ticket in ["", "right", "lines"] {
            tool.expect(&ask(&format!("draw {sheet} {ticket}")), picture(0))?;
        }
    }
    for ticket in [
        &b"2 1.1 5.1\n"[..],
        b"1 unplaced\n",
        &[255, 255, 1, 1, 255, 255],
    ] {
        tool.expect(&ask("draw t3.sheet -").fed(ticket), picture(0))?;
    }
    for (_, design) in extremes::designs().into_iter().step_by(11) {
        let input = design.list().bytes();
        tool.expect(&ask("draw -").fed(input), picture(0))?;
    }
    Ok(())
}

/// The same picture from both forms, and each time; another for another ticket.
fn alike(tool: &Tool) -> Result<(), Failure> {
    let picture = |line: &str, input: &[u8]| -> Result<Vec<u8>, Failure> {
        Ok(tool.output(&ask(line).fed(input))?.stdout)
    };
    let one = picture("draw t3.sheet right", &[])?;
    let same = [
        picture("draw t3.sheet right", &[])?,
        picture("draw t3.text lines", &[])?,
        picture("draw - lines", &t_raw(0, 3).bytes())?,
    ];
    let bare = picture("draw t3.sheet", &[])?;
    let unplaced = picture("draw t3.sheet -", &[255; 6])?;
    let other = picture("draw t3.sheet -", &[1, 1, 0, 0, 2, 2])?;
    let right = same.iter().all(|picture| *picture == one)
        && bare == unplaced
        && one != bare
        && one != other;
    match right {
        true => Ok(()),
        false => Err(Failure::new(
            "pictures that should be alike differ, or the reverse",
        )),
    }
}

/// 10 and 11 are not drawn, 12 and 13 are.
fn wrong_tickets(tool: &Tool) -> Result<(), Failure> {
    let cases: [(&[u8], u32); 6] = [
        (&[0, 0, 1, 1, 2], 10),
        (&[0, 0, 1, 1, 2, 3], 11),
        (&[0, 0, 1, 1, 2, 255], 11),
        (&[0, 1, 1, 1, 2, 2], 12),
        (&[255, 255, 1, 1, 1, 1], 13),
        (&[0, 0, 0, 0, 0, 0], 13),
    ];
    for (ticket, number) in cases {
        for sheet in ["t3.sheet", "t3.text"] {
            let asked = ask(&format!("draw {sheet} -")).fed(ticket);
            if number < 12 {
                tool.refused(&asked, "", number)?;
                continue;
            }
            tool.expect(&asked, picture(number))?;
            let into = ask(&format!("draw {sheet} - --out drawn")).fed(ticket);
            tool.refused(&into, "", number)?;
            if !tool.get("drawn")?.starts_with(b"<svg ") {
                return Err(Failure::new("a wrong ticket was not drawn"));
            }
        }
    }
    Ok(())
}
