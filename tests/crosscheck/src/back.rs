//! The way back: where Refit placed just one net and moved none, Remove of that
//! net gives back the old ticket.

use crate::board::Board;
use crate::call::Call;
use crate::outcome::Outcome;
use model::sheet::{parse, Net, Sheet};
use model::ticket::is_unplaced;
use sheets::Ask;

/// The Remove that leads back from this Refit, and what it must give; nothing if
/// the call is no such Refit.
pub fn way(board: Board, call: Call, outcome: &Outcome) -> Option<(Ask, Outcome)> {
    let Call::Listed(Ask::Refit { old, .. }) = call else {
        return None;
    };
    let (answer, output) = outcome.answer();
    if (answer.number, answer.moved) != (0, 0) {
        return None;
    }
    let sheet = parse(board.sheet).expect("an accepted sheet");
    let removal = Ask::Remove {
        ticket: output[..old.len()].to_vec(),
        net: only_unplaced(&sheet, old)?.number,
        room: old.len(),
    };
    let told = Outcome::Written {
        number: 0,
        output: old.clone(),
    };
    Some((removal, told))
}

/// The net that is unplaced, if it is just one.
fn only_unplaced<'a>(sheet: &'a Sheet, old: &[u8]) -> Option<&'a Net> {
    let mut unplaced = sheet.nets.iter().filter(|net| is_unplaced(net, old));
    let only = unplaced.next();
    only.filter(|_| unplaced.next().is_none())
}
