//! The picture of a sheet, its dead wires and a ticket.

use crate::options::Options;
use crate::refusal::{number_of, refused, Asked};
use crate::{input, print, Outcome, Problem, Status};
use trackrouter::lines::Missing;
use trackrouter::sheet::Sheet;
use trackrouter::{check_dead, check_old, draw, number};

/// A ticket is judged as Refit judges its old one. One that breaks 12, 21 or 13 is drawn too, as it is, so that one can look at it.
pub fn draw(options: &Options) -> Outcome {
    let bytes = input::sheet(options)?.bytes;
    let dead = input::dead(options)?;
    let ticket = input::ticket_if_given(options)?;
    let sheet = match Sheet::read(&bytes) {
        Ok(sheet) => sheet,
        Err(refusal) => return Ok(refused(refusal.number, Asked::Old)),
    };
    let ticket = ticket.map(|ticket| ticket.matched(&sheet, Missing::Unplaced));
    let ticket = ticket.transpose()?;
    let number = match &ticket {
        None => number_of(&check_dead(&bytes, &dead)),
        Some(ticket) => number_of(&check_old(&bytes, &dead, ticket)),
    };
    let drawn = [number::OK, number::SWITCH, number::BROKEN, number::CLASH];
    if !drawn.contains(&number) {
        return Ok(refused(number, Asked::Old));
    }
    let picture = draw::svg(&sheet, &dead, ticket.as_deref());
    let Some(picture) = picture else {
        return Err(Problem::new("there is no picture of this ticket"));
    };
    print::deliver_text(options, &picture)?;
    match number {
        number::OK => Ok(Status::Success),
        _ => Ok(refused(number, Asked::Old)),
    }
}
