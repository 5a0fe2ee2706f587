//! The lists written by hand: the paper's cases, the box table read from its
//! other end, the refusals, and calls under lists of dead wires, with sheets, lists
//! and tickets in both forms.

use crate::dead;
use crate::expected::{refusal, Expected, Text};
use crate::failure::Failure;
use crate::lines;
use crate::remove;
use crate::run::{ask, Tool};
use crate::text;
use sheets::case::long;
use sheets::{boxes, marks, paper, refusals, Ask, Case, Told};

pub fn run(tool: &Tool) -> Result<(), Failure> {
    let mut cases = paper::marked();
    cases.extend(paper::others());
    cases.extend(boxes::other_end());
    cases.extend(long(&cases));
    cases.extend(marks::cases().into_iter().step_by(11));
    // Every fault is asked eleven times under each mark: one in 13 of them is enough.
    cases.extend(refusals::cases().into_iter().step_by(13));
    cases.extend(sheets::dead::cases().into_iter().step_by(23));
    for case in cases.iter().filter(|case| with_enough_room(case)) {
        let board = Board::of(case);
        in_bytes(tool, board, &case.ask, &case.told)?;
        in_text(tool, board, &case.ask, &case.told)?;
    }
    Ok(())
}

/// A sheet and the dead wires.
#[derive(Clone, Copy)]
pub struct Board<'a> {
    pub sheet: &'a [u8],
    pub dead: &'a [u8],
}

impl<'a> Board<'a> {
    /// What the case's call is given: most calls take no list.
    fn of(case: &'a Case) -> Self {
        let dead = match case.ask.takes_list() {
            true => &case.dead[..],
            false => &[],
        };
        let sheet = &case.sheet;
        Board { sheet, dead }
    }
}

/// The tool's output is always long enough: no 14.
fn with_enough_room(case: &Case) -> bool {
    let entries = model::read(&case.sheet).entries as usize;
    case.ask.room().is_none_or(|room| room >= entries)
}

/// The call with sheet, list and ticket in bytes. Without an option there are no
/// dead wires.
pub fn in_bytes(tool: &Tool, board: Board, ask: &Ask, told: &Told) -> Result<(), Failure> {
    let Board { sheet, dead } = board;
    tool.put("case.sheet", sheet)?;
    let option = if sheet.contains(&0) { "" } else { "--bytes" };
    let mut inputs = format!("case.sheet {option}");
    if !dead.is_empty() {
        tool.put("case.dead", dead)?;
        let option = if dead::is_plain(dead) {
            ""
        } else {
            "--dead-bytes"
        };
        inputs += &format!(" --dead case.dead {option}");
    }
    match ask.ticket() {
        None => made(tool, &inputs, sheet, ask, told),
        Some(ticket) => {
            tool.put("case.ticket", ticket)?;
            let digit = ticket.iter().any(u8::is_ascii_digit);
            let option = if digit { "--ticket-bytes" } else { "" };
            let inputs = format!("{inputs} case.ticket {option}");
            made(tool, &inputs, sheet, ask, told)
        }
    }
}

/// The call with the sheet and the list as text and the ticket in lines: whether
/// there are such.
pub fn in_text(tool: &Tool, board: Board, ask: &Ask, told: &Told) -> Result<bool, Failure> {
    let Board { sheet, dead } = board;
    let (Some(typed), Some(listed)) = (text::of(sheet), dead::text(dead)) else {
        return Ok(false);
    };
    tool.put("case.text", typed)?;
    let mut inputs = "case.text".to_string();
    if let Some(ticket) = ask.ticket() {
        let Some(mut lines) = lines::of(sheet, ticket) else {
            return Ok(false);
        };
        lines.reverse();
        tool.put("case.lines", lines.concat())?;
        // Without a net there is no digit.
        inputs += " case.lines --ticket-text";
    }
    if ask.takes_list() {
        tool.put("case.list", listed)?;
        inputs += " --dead case.list";
    }
    made(tool, &inputs, sheet, ask, told)?;
    Ok(true)
}

fn verb(ask: &Ask) -> &'static str {
    match ask {
        Ask::Read => "read",
        Ask::Record { .. } => "record",
        Ask::Check { .. } => "check",
        Ask::Route { .. } => "route",
        Ask::Least { .. } => "least",
        Ask::Refit { .. } => "refit",
        Ask::Remove { .. } => "remove",
    }
}

fn made(tool: &Tool, inputs: &str, sheet: &[u8], asked: &Ask, told: &Told) -> Result<(), Failure> {
    let line = format!("{} {inputs}", verb(asked));
    let line = match asked {
        Ask::Record { place } => format!("{line} {place}"),
        Ask::Remove { net, .. } => format!("{line} {net}"),
        Ask::Route { budget, .. } | Ask::Least { budget, .. } | Ask::Refit { budget, .. } => {
            format!("{line} --budget {budget}")
        }
        _ => line,
    };
    tool.expect(&ask(&line), expected(sheet, asked, told))
}

/// What the tool prints for an outcome, and its status.
fn expected(sheet: &[u8], asked: &Ask, told: &Told) -> Expected {
    let (number, stdout) = match told {
        Told::Counts {
            number,
            nets,
            entries,
        } => (
            *number,
            format!("answer {number} nets {nets} entries {entries}\n"),
        ),
        Told::Number(number) => (*number, format!("answer {number}\n")),
        Told::Part { offset, length } => {
            return part(sheet, *offset, *length);
        }
        Told::Answer { answer, written } => {
            let [number, width, trials] = [answer.number, answer.width, answer.trials];
            let mut text = format!("answer {number} width {width} trials {trials}");
            if let Ask::Refit { .. } = asked {
                text += &format!(" moved {}", answer.moved);
            }
            text.push('\n');
            if number == 0 {
                text += &lines::of(sheet, written).expect("a ticket").concat();
            }
            (number, text)
        }
        Told::Ticket { number: 0, written } => {
            let left = remove::placed(sheet, written).expect("a ticket");
            (0, format!("answer 0\n{}", left.concat()))
        }
        Told::Ticket { number, .. } => (*number, format!("answer {number}\n")),
    };
    let stdout = Text::Is(stdout.into());
    match number {
        0 => Expected {
            status: 0,
            stdout,
            stderr: Text::Is(Vec::new()),
        },
        number => Expected {
            status: 1,
            stdout,
            stderr: refusal(verb(asked), number),
        },
    }
}

/// What the tool prints for Record's part.
fn part(sheet: &[u8], offset: usize, length: usize) -> Expected {
    let number = model::read(sheet).number;
    let (status, stderr) = match (length, number) {
        (0, 0) => (
            1,
            Text::line(&["trackrouter: there is no record at place "]),
        ),
        (0, number) => (1, refusal("record", number)),
        _ => (0, Text::Is(Vec::new())),
    };
    Expected {
        status,
        stdout: Text::Is(format!("offset {offset} length {length}\n").into()),
        stderr,
    }
}
