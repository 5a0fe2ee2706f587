//! Lists whose items stand in another order, or that have more items at or above W:
//! the answer is the same. Without dead wires it mostly is another.

use super::by_chance;
use crate::battery::{bound, Kind};
use crate::board::Board;
use crate::call::Call;
use crate::coverage::dead::{CHANGED, IGNORED, ORDER};
use crate::failure::{describe, Failure};
use crate::judge::Judge;
use crate::olds;
use crate::outcome::{hex, Outcome};
use model::sheet::parse;
use sheets::dead::{list, shuffled, wires, Chances};
use sheets::{Ask, Rng};

pub fn round(judge: &mut Judge, rng: &mut Rng) -> Result<(), Failure> {
    let (design, dead) = by_chance(rng);
    let bytes = design.relist(rng).bytes();
    let sheet = parse(&bytes).expect("a good sheet");
    let entries = sheet.entry_count();
    let more = Chances::new(&design).above(rng);
    let old = olds::placed_by_chance(&sheet, &dead, rng);
    let over = olds::placed_by_chance(&sheet, &[], rng);
    let mut asks = vec![
        Kind::Route.ask(bound(rng), entries),
        Kind::Least.ask(bound(rng), entries),
        Kind::Refit(&old).ask(bound(rng), entries),
        Kind::Refit(&over).ask(bound(rng), entries),
        Ask::Check {
            ticket: olds::all_first(&sheet),
        },
    ];
    for board in [Board::from(&bytes), Board::new(&bytes, &dead)] {
        let routed = judge.ask(board, &asks[0])?;
        if let (0, ticket) = (routed.answer().0.number, routed.answer().1.to_vec()) {
            asks.push(Ask::Check { ticket });
        }
    }
    for ask in &asks {
        one(judge, Board::new(&bytes, &dead), &more, ask, rng)?;
    }
    Ok(())
}

/// The call under the list, under its items in another order, with more items at or
/// above W, and without a list.
fn one(
    judge: &mut Judge,
    board: Board,
    more: &[u8],
    ask: &Ask,
    rng: &mut Rng,
) -> Result<(), Failure> {
    let before = judge.output_before(ask);
    let outcome = judge.compare(board, ask, &before)?;
    let call = Call::from(ask).name();
    let turned = shuffled(board.dead, rng);
    let what = "a list in another order is answered differently";
    same(
        judge,
        board,
        &turned,
        ask,
        (&before, &outcome),
        ("order", what),
    )?;
    let success = outcome.number() == Some(0);
    if success && turned != board.dead {
        judge.coverage.see(board.sheet, call, ORDER);
    }
    if !matches!(ask, Ask::Least { .. }) {
        let more = joined(board.dead, more, rng);
        let what = "dead wires at or above W change an answer";
        same(
            judge,
            board,
            &more,
            ask,
            (&before, &outcome),
            ("above", what),
        )?;
        if success && more.len() > board.dead.len() {
            judge.coverage.see(board.sheet, call, IGNORED);
        }
    }
    let without = judge.compare(board.sheet, ask, &before)?;
    if without.number() == Some(0) && matches!(outcome.number(), Some(0 | 21)) && without != outcome
    {
        judge.coverage.see(board.sheet, call, CHANGED);
    }
    Ok(())
}

/// Asks under another list, with what the outcome must be.
fn same(
    judge: &mut Judge,
    board: Board,
    other: &[u8],
    ask: &Ask,
    (before, outcome): (&[u8], &Outcome),
    (field, what): (&str, &str),
) -> Result<(), Failure> {
    let mut given = judge.compare(Board::new(board.sheet, other), ask, before)?;
    if let Some(wrong) = judge.wrong() {
        wrong.spoil_order(field, &mut given);
    }
    if given == *outcome {
        return Ok(());
    }
    let failure = Failure::new(what, &describe(board, ask, before));
    Err(failure
        .with("both", outcome)
        .with("the other list", hex(other))
        .with("both", given))
}

/// The items of both lists, each once, in a chance order.
fn joined(dead: &[u8], more: &[u8], rng: &mut Rng) -> Vec<u8> {
    let mut items = wires(dead);
    let more = wires(more).into_iter();
    let new: Vec<_> = more.filter(|wire| !items.contains(wire)).collect();
    items.extend(new);
    shuffled(&list(&items), rng)
}
