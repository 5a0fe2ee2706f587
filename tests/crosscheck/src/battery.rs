//! All calls on one accepted sheet.

use crate::board::Board;
use crate::failure::Failure;
use crate::forms::rooms;
use crate::judge::Judge;
use crate::outcome::Outcome;
use crate::{olds, removing};
use model::sheet::{parse, Sheet};
use sheets::{Ask, Rng};

/// How long a run may be at most, in trials.
pub const MOST: u32 = 20_000;

/// A call that routes, with its budget and room left open.
#[derive(Clone, Copy)]
pub enum Kind<'a> {
    Route,
    Least,
    Refit(&'a [u8]),
}

impl Kind<'_> {
    pub fn ask(&self, budget: u32, room: usize) -> Ask {
        match self {
            Kind::Route => Ask::Route { budget, room },
            Kind::Least => Ask::Least { budget, room },
            Kind::Refit(old) => Ask::Refit {
                old: old.to_vec(),
                budget,
                room,
            },
        }
    }
}

/// A bound for one run: seldom the largest.
pub fn bound(rng: &mut Rng) -> u32 {
    if rng.chance(1, 10) {
        MOST
    } else {
        2_000
    }
}

/// Read, and Record at every place and beyond.
pub fn reading(judge: &mut Judge, board: Board, rng: &mut Rng) -> Result<(), Failure> {
    let outcome = judge.ask(board, &Ask::Read)?;
    let Outcome::Counts { nets, .. } = outcome else {
        unreachable!("Read gives counts");
    };
    let nets = nets as usize;
    let mut places = vec![0, nets, nets + 1, usize::MAX, rng.draw() as usize];
    places.extend((0..4).map(|_| rng.below(nets.max(1))));
    places.push(nets.saturating_sub(1));
    for _ in 0..3 {
        let place = *rng.pick(&places);
        judge.ask(board, &Ask::Record { place })?;
    }
    Ok(())
}

/// The call with budgets at, one below and one above what its run needs, and
/// far above; with space that is enough, too much, and too little.
pub fn budgets(
    judge: &mut Judge,
    board: Board,
    entries: usize,
    kind: Kind,
    rng: &mut Rng,
) -> Result<Outcome, Failure> {
    let limit = bound(rng);
    let outcome = judge.ask(board, &kind.ask(limit, entries))?;
    let answer = outcome.answer().0;
    let mut budgets = vec![0];
    if answer.number == 16 {
        budgets.extend([1, rng.below(limit as usize) as u32]);
    } else {
        let need = answer.trials;
        budgets.extend([need, need + 1, need.saturating_sub(1), u32::MAX]);
        budgets.push(rng.below(need as usize + 1) as u32);
    }
    for budget in budgets {
        let room = entries + *rng.pick(&[0, 0, 1, 7]);
        judge.ask(board, &kind.ask(budget, room))?;
    }
    if entries > 0 && rng.chance(1, 3) {
        let any = rng.below(entries);
        let room = *rng.pick(&[0, entries - 1, any]);
        judge.ask(board, &kind.ask(limit, room))?;
    }
    Ok(outcome)
}

/// Check on a ticket and on wrong ones made from it.
pub fn checking(
    judge: &mut Judge,
    board: Board,
    sheet: &Sheet,
    ticket: &[u8],
    rng: &mut Rng,
) -> Result<(), Failure> {
    let ask = |ticket: &[u8]| Ask::Check {
        ticket: ticket.to_vec(),
    };
    judge.ask(board, &ask(ticket))?;
    for _ in 0..6 {
        judge.ask(board, &ask(&olds::mutated(ticket, sheet, rng)))?;
    }
    Ok(())
}

/// Remove on an old ticket that Refit accepts and, if there is one, on a right
/// ticket: every net of one of the two in turn.
fn taking_out(
    judge: &mut Judge,
    board: Board,
    sheet: &Sheet,
    old: &[u8],
    right: Option<&[u8]>,
    rng: &mut Rng,
) -> Result<(), Failure> {
    let either = right.filter(|_| rng.chance(1, 2)).unwrap_or(old);
    if rng.chance(1, 4) {
        removing::one_by_one(judge, board, sheet, either, rng)?;
    } else {
        removing::every_net(judge, board, sheet, either, rng)?;
    }
    removing::any_number(judge, board, sheet, either, rng)?;
    if rng.chance(1, 4) {
        removing::refusals(judge, board, sheet, either, rng)?;
    }
    right.map_or(Ok(()), |right| {
        removing::out_and_in(judge, board, sheet, right, rng)
    })
}

/// The dead wires that an old ticket keeps off: mostly all, at times none.
fn avoided<'a>(board: Board<'a>, rng: &mut Rng) -> &'a [u8] {
    if board.dead.is_empty() || rng.chance(1, 5) {
        &[]
    } else {
        board.dead
    }
}

/// Everything on one accepted sheet.
pub fn whole(judge: &mut Judge, board: Board, rng: &mut Rng) -> Result<(), Failure> {
    let sheet = parse(board.sheet).expect("a good sheet");
    let entries = sheet.entry_count();
    reading(judge, board, rng)?;
    rooms::some(judge, board.sheet, rng)?;

    let routed = budgets(judge, board, entries, Kind::Route, rng)?;
    let (answer, ticket) = routed.answer();
    let old = olds::placed_by_chance(&sheet, avoided(board, rng), rng);
    checking(judge, board, &sheet, &old, rng)?;
    if answer.number == 0 {
        checking(judge, board, &sheet, ticket, rng)?;
    }
    budgets(judge, board, entries, Kind::Least, rng)?;
    budgets(judge, board, entries, Kind::Refit(&old), rng)?;
    for _ in 0..3 {
        let base = if answer.number == 0 && rng.chance(1, 2) {
            ticket
        } else {
            &old[..]
        };
        let old = olds::mutated(base, &sheet, rng);
        let limit = bound(rng);
        judge.ask(board, &Kind::Refit(&old).ask(limit, entries))?;
    }
    let right = (answer.number == 0).then_some(ticket);
    taking_out(judge, board, &sheet, &old, right, rng)
}

/// Refit on a crowded sheet whose unplaced nets find no track left.
pub fn crowded(judge: &mut Judge, board: Board, rng: &mut Rng) -> Result<(), Failure> {
    let sheet = parse(board.sheet).expect("a good sheet");
    for _ in 0..3 {
        let old = olds::placed_to_the_last(&sheet, avoided(board, rng), rng);
        let entries = sheet.entry_count();
        budgets(judge, board, entries, Kind::Refit(&old), rng)?;
    }
    Ok(())
}
