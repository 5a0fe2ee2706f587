//! From one form of a sheet, ticket or list of dead wires to the other, and the standard form.

use crate::input::{self, Ticket, Typed};
use crate::options::Options;
use crate::refusal::{refused, Asked};
use crate::verb::Role;
use crate::{print, Outcome, Problem, Status};
use trackrouter::lines::{self, Missing};
use trackrouter::sheet::Sheet;
use trackrouter::{dead, number, text, MAX_SHEET};

/// The list that is to be written in place of the sheet, if one is given.
fn list(options: &Options) -> Result<Option<Typed>, Problem> {
    match (options.input(Role::Ticket), options.input(Role::Dead)) {
        (Some(_), Some(_)) => Err(options.bad_usage("a ticket and --dead exclude each other")),
        _ => input::dead_if_given(options),
    }
}

/// The sheet, the ticket or the list in bytes. The sheet need not be accepted, unless lines are matched with it.
pub fn pack(options: &Options) -> Outcome {
    let list = list(options)?;
    let sheet = input::sheet(options)?.bytes;
    let bytes = match (input::ticket_if_given(options)?, list) {
        (_, Some(list)) => list.bytes,
        (None, None) => sheet,
        (Some(Ticket::Bytes(bytes)), None) => bytes,
        (Some(ticket), None) => match Sheet::read(&sheet) {
            Ok(sheet) => ticket.matched(&sheet, Missing::Wrong)?,
            Err(refusal) => return Ok(refused(refusal.number, Asked::Plain)),
        },
    };
    print::deliver_bytes(options, &bytes)?;
    Ok(Status::Success)
}

/// The sheet or the list as text, or the ticket in lines.
pub fn unpack(options: &Options) -> Outcome {
    let list = list(options)?;
    let sheet = input::sheet(options)?.bytes;
    let ticket = input::ticket_if_given(options)?;
    let sheet = match Sheet::read(&sheet) {
        Ok(sheet) => sheet,
        Err(refusal) => return Ok(refused(refusal.number, Asked::Plain)),
    };
    let written = match (ticket, list) {
        (_, Some(list)) => dead::read(&list.bytes)
            .map(|list| dead::write(&list))
            .ok_or(number::LIST),
        (None, None) => Ok(text::write(&sheet)),
        (Some(ticket), None) => {
            lines::write(&sheet, &ticket.matched(&sheet, Missing::Wrong)?).ok_or(number::SIZE)
        }
    };
    let written = match written {
        Ok(written) => written,
        Err(number) => return Ok(refused(number, Asked::Plain)),
    };
    print::deliver_text(options, &written)?;
    Ok(Status::Success)
}

/// The sheet in standard form, as text; its bytes go to the file that `--out` names. There is no first line with the answer, so that what
/// is printed is a sheet.
pub fn standard(options: &Options) -> Outcome {
    let sheet = input::sheet(options)?.bytes;
    let mut out = [0; MAX_SHEET];
    let bytes = match trackrouter::standard(&sheet, &mut out) {
        Ok(bytes) => bytes,
        Err(refusal) => return Ok(refused(refusal.number, Asked::Plain)),
    };
    let Ok(sheet) = Sheet::read(bytes) else {
        return Err(Problem::new("the library refuses its own standard form"));
    };
    print::to_stdout(text::write(&sheet).as_bytes())?;
    print::to_out_file(options, bytes)?;
    Ok(Status::Success)
}
