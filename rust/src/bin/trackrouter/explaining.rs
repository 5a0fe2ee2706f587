//! Where a sheet, a list of dead wires or a ticket breaks its rule.

use crate::input::{self, Typed};
use crate::options::Options;
use crate::refusal::{named, number_of};
use crate::{print, Outcome, Status};
use trackrouter::dead;
use trackrouter::explain::{self, By, Fault, Subject};
use trackrouter::lines::{self, Missing};
use trackrouter::sheet::{Sheet, TRAILER};
use trackrouter::text::{self, Line};
use trackrouter::{number, UNPLACED};

pub fn explain(options: &Options) -> Outcome {
    let sheet = input::sheet(options)?;
    let list = input::dead_if_given(options)?;
    let (by, missing) = match options.old {
        true => (By::Refit, Missing::Unplaced),
        false => (By::Check, Missing::Wrong),
    };
    let input = input::ticket_if_given(options)?;
    let ticket = match &input {
        None => None,
        Some(input) => Some(input.for_call(&sheet.bytes, missing)?),
    };
    let judged = Judged {
        sheet: &sheet.bytes,
        list: list.as_ref().map(|list| &list.bytes[..]),
        ticket: ticket.as_deref(),
        by,
    };
    let (fault, answer) = (judged.fault(), judged.answer());
    let found = fault.as_ref().map_or(0, |fault| fault.number);
    if found != answer {
        let (answer, found) = (named(answer), named(found));
        print::say(&format!(
            "the library answers {answer}, but the explanation finds {found}"
        ));
        return Ok(Status::Refused);
    }
    let Some(fault) = fault else {
        return print::text(&format!("answer 0\n{}\n", judged.accepted()));
    };
    let lines = input.as_ref().and_then(|input| input.lines());
    let line = match (fault.of, lines) {
        (Subject::Ticket, Some(lines)) => line_of_ticket(&fault, &sheet, lines),
        // A ticket in bytes has no lines: the net's line is that of the sheet.
        (Subject::Ticket, None) | (Subject::Sheet, _) => line_of_sheet(&fault, &sheet),
        (Subject::List, _) => list.and_then(|list| line_of_list(&fault, &list.text?)),
    };
    print::text(&told(&fault, line))?;
    Ok(Status::Refused)
}

/// What is to be explained.
struct Judged<'a> {
    sheet: &'a [u8],
    /// The list of dead wires, if one is given.
    list: Option<&'a [u8]>,
    ticket: Option<&'a [u8]>,
    by: By,
}

impl Judged<'_> {
    fn fault(&self) -> Option<Fault> {
        match (self.ticket, self.list) {
            (None, None) => explain::sheet(self.sheet),
            (None, Some(list)) => explain::list(self.sheet, list),
            (Some(ticket), _) => explain::ticket(self.sheet, self.dead(), ticket, self.by),
        }
    }

    fn dead(&self) -> &[u8] {
        self.list.unwrap_or_default()
    }

    /// The library's own number.
    fn answer(&self) -> u32 {
        let (sheet, dead) = (self.sheet, self.dead());
        match (self.ticket, self.list, self.by) {
            (None, None, _) => number_of(&trackrouter::read(sheet)),
            (None, Some(list), _) => number_of(&trackrouter::check_dead(sheet, list)),
            (Some(ticket), _, By::Check) => number_of(&trackrouter::check(sheet, dead, ticket)),
            (Some(ticket), _, By::Refit) => number_of(&trackrouter::check_old(sheet, dead, ticket)),
        }
    }

    /// The line for what breaks no rule.
    fn accepted(&self) -> String {
        let Ok(sheet) = Sheet::read(self.sheet) else {
            return String::new();
        };
        let nets = sheet.nets().len();
        match (self.ticket, self.list, self.by) {
            (None, None, _) => {
                let entries = sheet.entry_count();
                format!("the sheet is accepted: {nets} nets, {entries} entries")
            }
            (None, Some(list), _) => {
                let (list, width) = (dead::read(list).unwrap_or_default(), sheet.width());
                let below = list.iter().filter(|wire| wire.track < width).count();
                let wires = list.len();
                format!("the list is accepted: {below} of {wires} dead wires below W {width}")
            }
            (Some(_), _, By::Check) => "the ticket is right".to_string(),
            (Some(ticket), _, By::Refit) => {
                let byte = |place: usize| ticket.get(place) == Some(&UNPLACED);
                let unplaced = sheet.parts().filter(|(_, part)| part.clone().all(byte));
                let count = unplaced.count();
                format!("the old ticket is accepted: {count} of {nets} nets unplaced")
            }
        }
    }
}

/// The first line, the finding, the line of the text that it speaks of, and the rule.
fn told(fault: &Fault, line: Option<String>) -> String {
    let Fault {
        number,
        finding,
        rule,
        ..
    } = fault;
    let line = line.unwrap_or_default();
    format!(
        "answer {number}\n{}: {finding}\n{line}rule: {rule}\n",
        named(*number)
    )
}

/// The line of a typed sheet that the fault speaks of: that of its net, or of the field of chip, kind and width.
fn line_of_sheet(fault: &Fault, sheet: &Typed) -> Option<String> {
    let text = sheet.text.as_deref()?;
    let line = match fault.number {
        number::CHIP => {
            let field = (fault.offset? + TRAILER).checked_sub(sheet.bytes.len())?;
            *[Line::Chip, Line::Chip, Line::Kind, Line::Width].get(field)?
        }
        _ => Line::Net(fault.record?),
    };
    shown(text, text::line_of(text, line)?, "sheet")
}

/// The line of a ticket in lines that the fault speaks of: that of its net.
fn line_of_ticket(fault: &Fault, sheet: &Typed, text: &str) -> Option<String> {
    let sheet = Sheet::read(&sheet.bytes).ok()?;
    let net = sheet.nets().get(fault.record?)?.number();
    shown(text, lines::line_of(text, net)?, "ticket")
}

/// The line of a typed list that has the item of the fault.
fn line_of_list(fault: &Fault, text: &str) -> Option<String> {
    shown(text, dead::line_of(text, fault.item?)?, "list")
}

/// The line at this place, from 1, without the byte order mark that may stand before the first.
fn shown(text: &str, at: usize, of: &str) -> Option<String> {
    let line = text.lines().nth(at.checked_sub(1)?)?;
    let line = print::one_line(line.trim_start_matches('\u{feff}'));
    Some(format!("line {at} of the {of}: {line}\n"))
}
