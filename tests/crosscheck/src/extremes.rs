//! The largest, smallest and fullest sheets through all calls.

use crate::battery::{self, budgets, checking, Kind};
use crate::board::Board;
use crate::failure::Failure;
use crate::forms::{alike, rooms, same};
use crate::hurt::every_call;
use crate::judge::Judge;
use crate::{olds, removing};
use model::sheet::parse;
use sheets::{extremes, Design, Rng};

/// How many sheets were tried: each design under both marks, in turn under one of them
/// with all budgets, tickets and forms.
pub fn run(judge: &mut Judge) -> Result<usize, Failure> {
    let mut rng = Rng::new(16);
    let designs = extremes::both();
    for (place, pair) in designs.iter().enumerate() {
        for (mark, (name, design)) in pair.iter().enumerate() {
            let bytes = design.list().bytes();
            let asked = match whole_under(place) == mark {
                true => one(judge, &bytes, &mut rng)
                    .and_then(|()| forms(judge, design, &bytes, &mut rng)),
                false => every_call(judge, Board::from(&bytes), &mut rng),
            };
            asked.map_err(|failure| failure.with("extreme", name))?;
        }
    }
    Ok(2 * designs.len())
}

/// Which of the two marks has the whole of it. Designs of one shape, which stand 8
/// apart, have them in turn.
pub fn whole_under(place: usize) -> usize {
    (place + place / 8) % 2
}

/// Standard in every output, on relistings, on other nets and on the form.
fn forms(judge: &mut Judge, design: &Design, bytes: &[u8], rng: &mut Rng) -> Result<(), Failure> {
    rooms::every(judge, bytes)?;
    let form = same::relistings(judge, design, bytes, rng)?;
    same::other_nets(judge, design, &form, rng)?;
    alike::own_form(judge, &form, rng)?;
    alike::counts(judge, bytes, &form)
}

fn one(judge: &mut Judge, bytes: &[u8], rng: &mut Rng) -> Result<(), Failure> {
    let board = Board::from(bytes);
    battery::whole(judge, board, rng)?;
    let sheet = parse(bytes).expect("a good sheet");
    let tickets = [
        olds::all_first(&sheet),
        olds::all_last(&sheet),
        olds::all_unplaced(&sheet),
        olds::in_turn(&sheet),
    ];
    for ticket in &tickets {
        checking(judge, board, &sheet, ticket, rng)?;
        let entries = sheet.entry_count();
        budgets(judge, board, entries, Kind::Refit(ticket), rng)?;
        removing::any_number(judge, board, &sheet, ticket, rng)?;
    }
    let [.., in_turn] = &tickets;
    removing::refusals(judge, board, &sheet, in_turn, rng)
}
