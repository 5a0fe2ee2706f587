//! Sheets of kind 0, 1 or 2, and of kind 3 with the rows of that kind: all calls
//! answer the two alike, byte for byte.

use crate::battery::{bound, Kind};
use crate::board::Board;
use crate::call::Call;
use crate::coverage::dead;
use crate::coverage::rims::turns_inside;
use crate::coverage::rows::{succeeded, TWIN};
use crate::failure::{describe, Failure};
use crate::forms::rooms;
use crate::judge::Judge;
use crate::outcome::Outcome;
use crate::{hurt, olds, removing};
use model::sheet::parse;
use sheets::damage::{aims, damaged};
use sheets::dead::Chances;
use sheets::rows::by_rows;
use sheets::{extremes, random, Ask, Design, Rng};

/// The damaged sheets of a run beside those by chance.
const DAMAGED: usize = 100;

/// A sheet of each kind at each width, the longest ones, and damaged ones: how many.
pub fn run(judge: &mut Judge, rng: &mut Rng) -> Result<usize, Failure> {
    for kind in 0..3 {
        for width in 1..=32 {
            let design = turning(rng).with_kind(kind).with_width(width);
            accepted(judge, Board::from(&design.relist(rng).bytes()), rng)?;
        }
        let longest = extremes::winding(64, 32, kind, 32);
        accepted(judge, Board::from(&longest.list().bytes()), rng)?;
    }
    for _ in 0..DAMAGED {
        refused(judge, rng)?;
    }
    Ok(3 * 33 + DAMAGED)
}

/// A sheet by chance, good or damaged.
pub fn round(judge: &mut Judge, rng: &mut Rng) -> Result<(), Failure> {
    if rng.chance(1, 3) {
        return refused(judge, rng);
    }
    let kind = rng.below(3) as u8;
    let design = turning(rng).with_kind(kind);
    accepted(judge, Board::from(&design.relist(rng).bytes()), rng)
}

/// A good sheet under dead wires.
pub fn under(judge: &mut Judge, rng: &mut Rng) -> Result<(), Failure> {
    let kind = rng.below(3) as u8;
    let design = turning(rng).with_kind(kind);
    let dead = Chances::new(&design).any(rng);
    let bytes = design.relist(rng).bytes();
    accepted(judge, Board::new(&bytes, &dead), rng)
}

/// A design in which a net turns in an inner box, so that the rows matter.
fn turning(rng: &mut Rng) -> Design {
    loop {
        let design = random::any(rng);
        if turns_inside(&design.list().bytes()) {
            return design;
        }
    }
}

/// A sheet that may be refused: it has the same number as kind 3.
fn refused(judge: &mut Judge, rng: &mut Rng) -> Result<(), Failure> {
    let kind = rng.below(3) as u8;
    let raw = random::small(rng).with_kind(kind).relist(rng);
    let bytes = damaged(raw, &aims(rng), rng);
    let Some(twin) = by_rows(&bytes) else {
        return Ok(());
    };
    let two = [&bytes, &twin].map(|sheet| Board::from(sheet));
    for ask in &hurt::asks(&bytes, rng) {
        both(judge, two, ask)?;
    }
    standard(judge, two, rooms::room(&bytes, rng))
}

/// All calls on an accepted sheet and on its twin, under the same list.
fn accepted(judge: &mut Judge, board: Board, rng: &mut Rng) -> Result<(), Failure> {
    let Board { sheet: bytes, dead } = board;
    let twin = by_rows(bytes).expect("a kind below 3");
    let two = [bytes, &twin].map(|sheet| Board::new(sheet, dead));
    let sheet = parse(bytes).expect("a good sheet");
    let entries = sheet.entry_count();
    both(judge, two, &Ask::Read)?;
    for place in [0, rng.below(sheet.nets.len() + 1)] {
        both(judge, two, &Ask::Record { place })?;
    }
    let old = olds::placed_by_chance(&sheet, dead, rng);
    let wrong = olds::mutated(&old, &sheet, rng);
    let mut tickets = vec![old.clone(), wrong.clone()];
    let [refit, refit_wrong] = [&old, &wrong].map(|old| Kind::Refit(old));
    for kind in [Kind::Route, Kind::Least, refit, refit_wrong] {
        let outcome = both(judge, two, &kind.ask(bound(rng), entries))?;
        let (answer, output) = outcome.answer();
        let near = answer.trials.saturating_sub(rng.below(2) as u32);
        both(judge, two, &kind.ask(near, entries + rng.below(3)))?;
        if answer.number == 0 {
            tickets.push(output.to_vec());
        }
    }
    for ticket in &tickets {
        let (net, room) = (removing::number(&sheet, rng), removing::room(entries, rng));
        both(judge, two, &removing::ask(ticket, net, room))?;
        let ticket = ticket.clone();
        both(judge, two, &Ask::Check { ticket })?;
    }
    standard(judge, two, bytes.len())?;
    standard(judge, two, rooms::room(bytes, rng))
}

/// Asks both with the same inputs and compares what the library gave.
fn both(judge: &mut Judge, [one, twin]: [Board; 2], ask: &Ask) -> Result<Outcome, Failure> {
    let before = judge.output_before(ask);
    let outcome = judge.compare(one, ask, &before)?;
    let mut other = judge.compare(twin, ask, &before)?;
    spoil(judge, ask.into(), &mut other);
    if outcome == other {
        if succeeded(&outcome) && turns_inside(one.sheet) {
            let call = Call::from(ask);
            judge.coverage.see(one.sheet, call.name(), TWIN);
            if call.takes_list() && !one.dead.is_empty() {
                judge.coverage.see(one.sheet, call.name(), dead::TWIN);
            }
        }
        return Ok(outcome);
    }
    Err(apart(one, ask.into(), outcome, twin, other))
}

/// The form of the twin is the twin of the form. `room` is for the sheet without
/// rows.
fn standard(judge: &mut Judge, two: [Board; 2], room: usize) -> Result<(), Failure> {
    let [one, twin] = two.map(|board| board.sheet);
    let call = Call::Standard { room };
    let outcome = judge.ask(one, call)?;
    let of_twin = Call::Standard { room: room + 12 };
    let mut other = judge.ask(twin, of_twin)?;
    spoil(judge, of_twin, &mut other);
    let ((number, output), (other_number, form)) = (outcome.written(), other.written());
    let same = number != 0 || by_rows(&output[..one.len()]).as_deref() == form.get(..twin.len());
    if number == other_number && same {
        if number == 0 && turns_inside(one) {
            judge.coverage.see(one, "standard", TWIN);
        }
        return Ok(());
    }
    Err(apart(two[0], call, outcome, two[1], other))
}

/// Changes what a call gave on the twin if `--wrong` names it.
fn spoil(judge: &Judge, call: Call, outcome: &mut Outcome) {
    if let Some(wrong) = judge.wrong() {
        wrong.spoil_twin(call, outcome);
    }
}

fn apart(one: Board, call: Call, outcome: Outcome, twin: Board, other: Outcome) -> Failure {
    let what = "kind 3 with a published kind's rows is not answered as that kind";
    Failure::new(what, &describe(one, call, &[]))
        .with("answer", outcome)
        .with("by rows", describe(twin, call, &[]))
        .with("answer", other)
}
