//! Small sheets, settled by brute force.

use crate::battery::{Kind, MOST};
use crate::board::Board;
use crate::call::Call;
use crate::coverage::dead;
use crate::failure::{describe, Failure};
use crate::judge::Judge;
use crate::outcome::{hex, Outcome};
use crate::{forms, olds, removing};
use model::brute::{self, strings, Settled};
use model::brute_table;
use model::sheet::{parse, Sheet};
use sheets::dead::{harm, Chances};
use sheets::{random, Ask, Rng};

pub fn settle(judge: &mut Judge, rng: &mut Rng) -> Result<(), Failure> {
    let raw = random::small(rng).relist(rng);
    forms::force::settled(judge, &raw, rng)?;
    let bytes = raw.bytes();
    let sheet = parse(&bytes).expect("a good sheet");
    let old = settled(judge, Board::from(&bytes), &sheet, rng)?;
    for ticket in &partly_filled(&sheet, &old, rng) {
        removal(judge, &bytes, &sheet, ticket, rng)?;
    }
    Ok(())
}

/// Under dead wires, with Check and Refit on every ticket of a tiny sheet; then under
/// a bad list.
pub fn settle_under(judge: &mut Judge, rng: &mut Rng) -> Result<(), Failure> {
    let design = random::small(rng);
    let chances = Chances::new(&design);
    let dead = chances.any(rng);
    let bytes = design.relist(rng).bytes();
    let sheet = parse(&bytes).expect("a good sheet");
    let board = Board::new(&bytes, &dead);
    let old = settled(judge, board, &sheet, rng)?;
    for ticket in &partly_filled(&sheet, &old, rng) {
        refit(judge, board, &sheet, ticket)?;
        numbered(judge, board, &sheet, ticket)?;
    }
    for numbers in [&[19][..], &[20], &[19, 20]] {
        let dead = harm(&chances, dead.clone(), numbers, rng);
        let ticket = olds::mutated(&old, &sheet, rng);
        numbered(judge, Board::new(&bytes, &dead), &sheet, &ticket)?;
    }
    Ok(())
}

/// Check and Refit give the number that brute force does for list and ticket.
fn numbered(judge: &mut Judge, board: Board, sheet: &Sheet, ticket: &[u8]) -> Result<(), Failure> {
    let check = Ask::Check {
        ticket: ticket.to_vec(),
    };
    let refit = Kind::Refit(ticket).ask(MOST, sheet.entry_count());
    let settled = [
        (check, brute_table::check(sheet, board.dead, ticket)),
        (refit, brute_table::old(sheet, board.dead, ticket)),
    ];
    for (ask, number) in settled {
        let outcome = judge.ask(board, &ask)?;
        // What Refit gives after its tests is no matter here.
        let given = outcome.number().filter(|given| !matches!(given, 15 | 16));
        if number.is_some_and(|number| given.unwrap_or(0) != number) {
            let call = describe(board, &ask, &[]);
            let failure = Failure::new("brute force has another number", &call);
            let force = format!("{number:?}");
            return Err(failure.with("brute force", force).with("both", outcome));
        }
    }
    Ok(())
}

/// Check, Route, Least and Refit: the old ticket of Refit.
fn settled(
    judge: &mut Judge,
    board: Board,
    sheet: &Sheet,
    rng: &mut Rng,
) -> Result<Vec<u8>, Failure> {
    every_ticket(judge, board, sheet)?;
    if let Some(settled) = brute::route(sheet, board.dead) {
        hold(judge, board, sheet, Kind::Route, &settled)?;
    }
    if let Some(settled) = brute::least(sheet, board.dead) {
        hold(judge, board, sheet, Kind::Least, &settled)?;
    }
    let old = olds::placed_by_chance(sheet, board.dead, rng);
    if let Some(settled) = brute::refit(sheet, board.dead, &old) {
        hold(judge, board, sheet, Kind::Refit(&old), &settled)?;
    }
    Ok(old)
}

/// Refit gives what brute force does, if that accepts the old ticket.
fn refit(judge: &mut Judge, board: Board, sheet: &Sheet, old: &[u8]) -> Result<(), Failure> {
    let outcome = judge.ask(board, &Kind::Refit(old).ask(MOST, sheet.entry_count()))?;
    if !matches!(outcome.number(), Some(0 | 15)) {
        return Ok(());
    }
    match brute::refit(sheet, board.dead, old) {
        Some(settled) => hold(judge, board, sheet, Kind::Refit(old), &settled),
        None => Ok(()),
    }
}

/// Check on a tiny sheet with every ticket whose bytes are below W: it passes
/// some exactly if Route, by brute force, has one.
fn every_ticket(judge: &mut Judge, board: Board, sheet: &Sheet) -> Result<(), Failure> {
    let entries = sheet.entry_count();
    let count = u64::from(sheet.width).checked_pow(entries as u32);
    if count.is_none_or(|count| count > 64) {
        return Ok(());
    }
    let mut passed = None;
    for ticket in strings(sheet.width, entries) {
        let ask = Ask::Check { ticket };
        if judge.ask(board, &ask)? == Outcome::Number(0) {
            passed = Some(ask);
        }
    }
    let Some(settled) = brute::route(sheet, board.dead) else {
        return Ok(());
    };
    if passed.is_some() == (settled.answer.number == 0) {
        if !board.dead.is_empty() {
            judge.coverage.see(board.sheet, "check", dead::FORCE);
        }
        return Ok(());
    }
    // The ticket that only one of the two finds right.
    let ask = passed.unwrap_or_else(|| Ask::Check {
        ticket: settled.ticket.clone(),
    });
    let outcome = judge.ask(board, &ask)?;
    let call = describe(board, &ask, &[]);
    let failure = Failure::new("Check and brute force disagree on a ticket", &call);
    Err(failure
        .with("brute force", force(&settled))
        .with("both", outcome))
}

/// The call gives what brute force settled.
fn hold(
    judge: &mut Judge,
    board: Board,
    sheet: &Sheet,
    kind: Kind,
    settled: &Settled,
) -> Result<(), Failure> {
    let room = sheet.entry_count();
    let need = settled.answer.trials;
    let budget = if need <= MOST { u32::MAX } else { MOST };
    let ask = kind.ask(budget, room);
    let before = judge.output_before(&ask);
    let outcome = judge.compare(board, &ask, &before)?;
    let (answer, output) = outcome.answer();
    let right = if need <= budget {
        let same = (answer.number, answer.width) == (settled.answer.number, settled.answer.width)
            && (answer.trials, answer.moved) == (settled.answer.trials, settled.answer.moved);
        same && (answer.number != 0 || output == settled.ticket)
    } else {
        answer.number == 16 && answer.trials == budget
    };
    if right {
        if !board.dead.is_empty() {
            let call = Call::from(&ask).name();
            judge.coverage.see(board.sheet, call, dead::FORCE);
        }
        return Ok(());
    }
    let call = describe(board, &ask, &before);
    let failure = Failure::new("the answer is not what brute force settles", &call);
    Err(failure
        .with("brute force", force(settled))
        .with("both", outcome))
}

/// On a tiny sheet every ticket whose bytes are below W or 255; else an old
/// ticket and wrong ones made from it.
fn partly_filled(sheet: &Sheet, old: &[u8], rng: &mut Rng) -> Vec<Vec<u8>> {
    let entries = sheet.entry_count();
    let count = u64::from(sheet.width + 1).checked_pow(entries as u32);
    if count.is_none_or(|count| count > 64) {
        let mut tickets = vec![old.to_vec(); 2];
        tickets.extend((0..3).map(|_| olds::mutated(old, sheet, rng)));
        return tickets;
    }
    let mut tickets = strings(sheet.width + 1, entries);
    let bytes = tickets.iter_mut().flatten();
    let beyond = bytes.filter(|byte| u32::from(**byte) == sheet.width);
    beyond.for_each(|byte| *byte = 255);
    tickets
}

/// Remove of any number gives what brute force does.
fn removal(
    judge: &mut Judge,
    bytes: &[u8],
    sheet: &Sheet,
    ticket: &[u8],
    rng: &mut Rng,
) -> Result<(), Failure> {
    let net = removing::number(sheet, rng);
    let room = removing::room(sheet.entry_count(), rng);
    let ask = removing::ask(ticket, net, room);
    let before = judge.output_before(&ask);
    let outcome = judge.compare(bytes, &ask, &before)?;
    let Some((number, output)) = brute::remove(sheet, ticket, net, &before) else {
        return Ok(());
    };
    let settled = Outcome::Written { number, output };
    if outcome == settled {
        return Ok(());
    }
    let call = describe(bytes, &ask, &before);
    let failure = Failure::new("the answer is not what brute force settles", &call);
    Err(failure.with("brute force", settled).with("both", outcome))
}

/// What brute force settled, as text.
fn force(settled: &Settled) -> String {
    format!("{:?} {}", settled.answer, hex(&settled.ticket))
}
