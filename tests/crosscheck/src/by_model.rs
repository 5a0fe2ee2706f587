//! A call answered by the model.

use crate::board::Board;
use crate::call::Call;
use crate::outcome::Outcome;
use sheets::{Answer, Ask};

/// `before` is what the output holds before the call.
pub fn ask(board: Board, call: Call, before: &[u8]) -> Outcome {
    match call {
        Call::Listed(ask) => listed(board, ask, before),
        Call::Standard { .. } => written(before, |out| model::standard(board.sheet, out)),
    }
}

fn listed(board: Board, ask: &Ask, before: &[u8]) -> Outcome {
    let Board { sheet, dead } = board;
    match ask {
        Ask::Read => {
            let counts = model::read(sheet);
            Outcome::Counts {
                number: counts.number,
                nets: counts.nets,
                entries: counts.entries,
            }
        }
        Ask::Record { place } => {
            let part = model::record(sheet, *place);
            Outcome::Part {
                offset: part.offset,
                length: part.length,
            }
        }
        Ask::Check { ticket } => Outcome::Number(model::check(sheet, dead, ticket)),
        Ask::Route { budget, .. } => answer(before, |out| model::route(sheet, dead, *budget, out)),
        Ask::Least { budget, .. } => answer(before, |out| model::least(sheet, dead, *budget, out)),
        Ask::Refit { old, budget, .. } => {
            answer(before, |out| model::refit(sheet, dead, old, *budget, out))
        }
        Ask::Remove { ticket, net, .. } => {
            written(before, |out| model::remove(sheet, ticket, *net, out))
        }
    }
}

fn written(before: &[u8], call: impl FnOnce(&mut [u8]) -> u32) -> Outcome {
    let mut output = before.to_vec();
    let number = call(&mut output);
    Outcome::Written { number, output }
}

fn answer(before: &[u8], call: impl FnOnce(&mut [u8]) -> model::Answer) -> Outcome {
    let mut output = before.to_vec();
    let got = call(&mut output);
    Outcome::Answer {
        answer: Answer {
            number: got.number,
            width: got.width,
            trials: got.trials,
            moved: got.moved,
        },
        output,
    }
}
