//! A sheet of the first mark and its twin, the sheet of the second mark with the same
//! records and entries in the same order, numbers widened: Read, Check, Route, Least,
//! Refit and Remove give the same results and the same bytes in the whole output;
//! Record's part at place k is 2 bytes longer and starts 2·k bytes later; the form of
//! the twin is the twin of the form.

use crate::battery::MOST;
use crate::board::Board;
use crate::call::Call;
use crate::coverage::marks::{TWIN, TWIN_DEAD};
use crate::coverage::rows::succeeded;
use crate::failure::{describe, Failure};
use crate::judge::Judge;
use crate::outcome::Outcome;
use model::widen::widened;
use sheets::Ask;

/// Asks the twin what was asked of a sheet, if that has one, and compares. Runs of more
/// trials than all but the long ones make are not made again.
pub fn beside(
    judge: &mut Judge,
    board: Board,
    call: Call,
    before: &[u8],
    outcome: &Outcome,
) -> Result<(), Failure> {
    if matches!(outcome, Outcome::Answer { answer, .. } if answer.trials > MOST) {
        return Ok(());
    }
    let Some(twin) = widened(board.sheet) else {
        return Ok(());
    };
    let other = Board::new(&twin, board.dead);
    let more = twin.len() - board.sheet.len();
    // Standard writes the longer sheet into a longer output.
    let (other_call, other_before) = match call {
        Call::Standard { room } => {
            let call = Call::Standard { room: room + more };
            (call, judge.output_before(call))
        }
        _ => (call, before.to_vec()),
    };
    let mut given = judge.compare(other, other_call, &other_before)?;
    if let Some(wrong) = judge.wrong() {
        wrong.spoil_wide(call, &mut given);
    }
    if alike(call, [board.sheet, &twin], outcome, &given) {
        if succeeded(outcome) {
            judge.coverage.see(board.sheet, call.name(), TWIN);
            if call.takes_list() && !board.dead.is_empty() {
                judge.coverage.see(board.sheet, call.name(), TWIN_DEAD);
            }
        }
        return Ok(());
    }
    let what = "a sheet and its twin of the second mark are answered differently";
    Err(Failure::new(what, &describe(board, call, before))
        .with("answer", outcome)
        .with("the twin", describe(other, other_call, &other_before))
        .with("answer", given))
}

fn alike(call: Call, [sheet, twin]: [&[u8]; 2], one: &Outcome, other: &Outcome) -> bool {
    match (call, one, other) {
        (
            Call::Listed(Ask::Record { place }),
            &Outcome::Part { offset, length },
            &Outcome::Part {
                offset: later,
                length: longer,
            },
        ) if length > 0 => (later, longer) == (offset + 2 * place, length + 2),
        (Call::Standard { .. }, ..) => {
            let ((number, form), (other_number, other_form)) = (one.written(), other.written());
            let formed = |form: &[u8], length| form.get(..length).map(<[u8]>::to_vec);
            let widened = formed(form, sheet.len()).and_then(|form| widened(&form));
            let same =
                number != 0 || widened.is_some() && widened == formed(other_form, twin.len());
            number == other_number && same
        }
        _ => one == other,
    }
}

#[cfg(test)]
mod tests {
    use super::*;
    use sheets::paper::{T, T_LONG};

    #[test]
    fn parts_are_longer_and_later() {
        let ask = Ask::Record { place: 2 };
        let part = |offset, length| Outcome::Part { offset, length };
        let two = [&T[..], &T_LONG];
        let told = |other: Outcome| alike(Call::from(&ask), two, &part(24, 12), &other);
        assert!(told(part(28, 14)));
        for (offset, length) in [(24, 12), (28, 12), (24, 14), (26, 14), (0, 0)] {
            assert!(!told(part(offset, length)), "{offset} {length}");
        }
        let none = alike(Call::from(&ask), two, &part(0, 0), &part(0, 0));
        assert!(none);
    }

    #[test]
    fn forms_are_twins() {
        let room = T.len();
        let told = |other: &[u8]| {
            let written = |form: &[u8]| Outcome::Written {
                number: 0,
                output: form.to_vec(),
            };
            let two = [&T[..], &T_LONG];
            alike(Call::Standard { room }, two, &written(&T), &written(other))
        };
        assert!(told(&T_LONG) && told(&[&T_LONG[..], &[9]].concat()));
        let mut marked = T_LONG;
        marked[59] = 0x48;
        assert!(!told(&marked) && !told(&T));
    }
}
