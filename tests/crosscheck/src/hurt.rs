//! All calls on damaged sheets and on noise.

use crate::board::Board;
use crate::call::Call;
use crate::failure::Failure;
use crate::forms::rooms;
use crate::judge::Judge;
use crate::removing;
use model::sheet::parse;
use sheets::damage::{aims, damaged};
use sheets::{random, rows, Ask, Mark, Raw, Rng};

/// A good sheet with faults aimed at chosen numbers.
pub fn aimed(judge: &mut Judge, rng: &mut Rng) -> Result<(), Failure> {
    let mut design = random::any(rng);
    let numbers = aims(rng);
    if numbers.contains(&18) {
        design = design.with_rows(rows::any(rng));
    }
    let sheet = damaged(design.relist(rng), &numbers, rng);
    every_call(judge, Board::from(&sheet), rng)
}

/// A good sheet with chance bytes changed, put in or left out.
pub fn noisy(judge: &mut Judge, rng: &mut Rng) -> Result<(), Failure> {
    let mut sheet = random::small(rng).relist(rng).bytes();
    for _ in 0..rng.between(1, 3) {
        let tail = sheet.len().min(30);
        let place = if tail > 0 && rng.chance(1, 2) {
            sheet.len() - 1 - rng.below(tail)
        } else {
            rng.below(sheet.len().max(1))
        };
        match rng.below(6) {
            _ if sheet.is_empty() => {}
            0 => sheet.insert(place, rng.byte()),
            1 => drop(sheet.remove(place)),
            2 => sheet[place] = rng.byte(),
            3 => sheet[place] = sheet[place].wrapping_add(1),
            4 => sheet[place] = sheet[place].wrapping_sub(1),
            _ => sheet[place] ^= 1 << rng.below(8),
        }
    }
    every_call(judge, Board::from(&sheet), rng)
}

/// Chance bytes, some with a trailer that fits them.
pub fn random_bytes(judge: &mut Judge, rng: &mut Rng) -> Result<(), Failure> {
    let trailer = Raw::new(3, 2, rng.below(5) as u8, rng.below(35) as u8, Vec::new());
    let mut trailer = trailer.marked(*rng.pick(&Mark::BOTH));
    trailer.gap = (0..rng.below(60)).map(|_| rng.below(6) as u8).collect();
    trailer.settle();
    trailer.net_count = rng.below(4) as u16;
    let rows = if trailer.kind == 3 { 12 } else { 0 };
    trailer.directory_at -= (2 * trailer.net_count + rows).min(trailer.directory_at);
    let mut sheet = trailer.bytes();
    if rng.chance(1, 4) {
        sheet.iter_mut().for_each(|byte| *byte = rng.byte());
    }
    every_call(judge, Board::from(&sheet), rng)
}

/// The eight calls.
pub fn every_call(judge: &mut Judge, board: Board, rng: &mut Rng) -> Result<(), Failure> {
    for ask in &asks(board.sheet, rng) {
        judge.ask(board, ask)?;
    }
    let room = rooms::room(board.sheet, rng);
    judge.ask(board, Call::Standard { room })?;
    Ok(())
}

/// All calls but Standard; the number is mostly the sheet's, so the rest is by
/// chance.
pub fn asks(sheet: &[u8], rng: &mut Rng) -> [Ask; 7] {
    let counts = model::read(sheet);
    let entries = counts.entries as usize;
    let ticket: Vec<u8> = (0..entries + rng.below(3)).map(|_| 0).collect();
    let budget = rng.below(2000) as u32;
    let room = entries + rng.below(3);
    let place = rng.below(4);
    let net = match parse(sheet) {
        Ok(sheet) => removing::number(&sheet, rng),
        Err(_) => rng.below(4) as u32,
    };
    of_each(ticket, place, net, budget, room)
}

/// One of each call but Standard.
pub fn of_each(ticket: Vec<u8>, place: usize, net: u32, budget: u32, room: usize) -> [Ask; 7] {
    [
        Ask::Read,
        Ask::Record { place },
        Ask::Check {
            ticket: ticket.clone(),
        },
        Ask::Route { budget, room },
        Ask::Least { budget, room },
        Ask::Refit {
            old: ticket.clone(),
            budget,
            room,
        },
        Ask::Remove { ticket, net, room },
    ]
}
