//! Remove on one accepted sheet.

use crate::battery::{Kind, MOST};
use crate::board::Board;
use crate::failure::Failure;
use crate::judge::Judge;
use crate::olds;
use model::sheet::{Net, Sheet};
use sheets::{Ask, Rng};

pub fn ask(ticket: &[u8], net: u32, room: usize) -> Ask {
    Ask::Remove {
        ticket: ticket.to_vec(),
        net,
        room,
    }
}

/// A net number: one of the sheet, beside one, one with a half of one or its halves
/// exchanged, a list place or just beyond, an end, or any.
pub fn number(sheet: &Sheet, rng: &mut Rng) -> u32 {
    let own = own_number(sheet, rng).unwrap_or(0);
    match rng.below(12) {
        0 => own.wrapping_add(1),
        1 => own.wrapping_sub(1),
        2 => own.wrapping_add(65536 * rng.between(1, 65535) as u32),
        3 => rng.below(sheet.nets.len() + 1) as u32,
        4 => *rng.pick(&[0, 65535, 65536, u32::MAX]),
        5 => rng.draw() as u32,
        6 => *rng.pick(&[own & 0xFFFF, own >> 16, own.rotate_left(16)]),
        7 => own ^ u32::from(rng.word()),
        _ => own,
    }
}

fn own_number(sheet: &Sheet, rng: &mut Rng) -> Option<u32> {
    let some = !sheet.nets.is_empty();
    some.then(|| rng.pick(&sheet.nets).number)
}

/// A number that the sheet lacks.
fn stranger(sheet: &Sheet, rng: &mut Rng) -> u32 {
    loop {
        let number = number(sheet, rng);
        if sheet.numbered(number).is_none() {
            return number;
        }
    }
}

/// An output's length: enough, too much, or too little.
pub fn room(entries: usize, rng: &mut Rng) -> usize {
    match rng.below(8) {
        0 => 0,
        1 => entries.saturating_sub(1),
        2 => rng.below(entries + 1),
        3 => entries + 1,
        4 => entries + 7,
        _ => entries,
    }
}

/// Every net of a ticket in turn.
pub fn every_net(
    judge: &mut Judge,
    board: Board,
    sheet: &Sheet,
    ticket: &[u8],
    rng: &mut Rng,
) -> Result<(), Failure> {
    for net in &sheet.nets {
        let room = ticket.len() + *rng.pick(&[0, 0, 1, 7]);
        judge.ask(board, &ask(ticket, net.number, room))?;
    }
    Ok(())
}

/// Any number and any output, with a ticket and with wrong ones made from it.
pub fn any_number(
    judge: &mut Judge,
    board: Board,
    sheet: &Sheet,
    ticket: &[u8],
    rng: &mut Rng,
) -> Result<(), Failure> {
    let entries = sheet.entry_count();
    for _ in 0..2 {
        let wrong = olds::mutated(ticket, sheet, rng);
        for ticket in [ticket, &wrong] {
            let (net, room) = (number(sheet, rng), room(entries, rng));
            judge.ask(board, &ask(ticket, net, room))?;
        }
    }
    Ok(())
}

/// 13, 17 and 14: none, each alone, in pairs and all at once. The ticket is one
/// that Refit accepts.
pub fn refusals(
    judge: &mut Judge,
    board: Board,
    sheet: &Sheet,
    ticket: &[u8],
    rng: &mut Rng,
) -> Result<(), Failure> {
    let entries = sheet.entry_count();
    let Some(own) = own_number(sheet, rng) else {
        return Ok(());
    };
    let clashing = olds::clashing(ticket, sheet, rng);
    for ticket in [Some(ticket), clashing.as_deref()].into_iter().flatten() {
        for net in [own, stranger(sheet, rng)] {
            for room in [entries, rng.below(entries)] {
                judge.ask(board, &ask(ticket, net, room))?;
            }
        }
    }
    Ok(())
}

/// Net after net in a chance order, each from what the last call left.
pub fn one_by_one(
    judge: &mut Judge,
    board: Board,
    sheet: &Sheet,
    ticket: &[u8],
    rng: &mut Rng,
) -> Result<(), Failure> {
    let mut order: Vec<&Net> = sheet.nets.iter().collect();
    rng.shuffle(&mut order);
    let mut left = ticket.to_vec();
    for net in order {
        let outcome = judge.ask(board, &ask(&left, net.number, left.len()))?;
        left = outcome.written().1.to_vec();
    }
    Ok(())
}

/// A net out of a right ticket and, by Refit, in again. The others can stay where
/// they are, so none moves, and the judge asks for the way back.
pub fn out_and_in(
    judge: &mut Judge,
    board: Board,
    sheet: &Sheet,
    right: &[u8],
    rng: &mut Rng,
) -> Result<(), Failure> {
    let Some(net) = own_number(sheet, rng) else {
        return Ok(());
    };
    let outcome = judge.ask(board, &ask(right, net, right.len()))?;
    let left = outcome.written().1;
    judge.ask(board, &Kind::Refit(left).ask(MOST, right.len()))?;
    Ok(())
}
