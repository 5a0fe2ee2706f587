//! The lists written by hand.

use crate::failure::Failure;
use crate::forms::list::{self, Line};
use crate::item::{Item, List};
use crate::judge::Judge;
use sheets::case::{by_rows, long};
use sheets::{boxes, marks, paper, refusals, rim, Case};

/// The fixed list of refusals: how many cases were right.
pub fn refusals(judge: &mut Judge) -> Result<usize, Failure> {
    let dead = dead(judge)?;
    Ok(all(judge, &refusals::cases())? + dead + lines(judge, &list::refused())?)
}

/// Lists of dead wires, good and bad, tickets on dead wires and searches.
fn dead(judge: &mut Judge) -> Result<usize, Failure> {
    of_list(judge, List::Dead, &sheets::dead::cases())
}

/// The standard forms by hand.
pub fn forms(judge: &mut Judge) -> Result<usize, Failure> {
    lines(judge, &list::formed())
}

/// The paper's marked cases and "Others", and both as kind 3.
pub fn paper(judge: &mut Judge) -> Result<usize, Failure> {
    let mut cases = paper::marked();
    cases.extend(paper::others());
    cases.extend(by_rows(&cases));
    all(judge, &cases)
}

/// The paper's cases under the second mark, and calls in which the whole number
/// decides.
pub fn marks(judge: &mut Judge) -> Result<usize, Failure> {
    of_list(judge, List::Marks, &marks::cases())
}

/// The box table from either end, also as kind 3, and boxes by other rows, under both
/// marks.
pub fn boxes(judge: &mut Judge) -> Result<usize, Failure> {
    let mut cases = boxes::cases();
    cases.extend(boxes::other_end());
    cases.extend(by_rows(&cases));
    cases.extend(boxes::row_cases());
    cases.extend(boxes::row_calls());
    cases.extend(long(&cases));
    all(judge, &cases)
}

/// Corner, rim and inner boxes with every kind.
pub fn rim(judge: &mut Judge) -> Result<usize, Failure> {
    of_list(judge, List::Rim, &rim::cases())
}

fn all(judge: &mut Judge, cases: &[Case]) -> Result<usize, Failure> {
    of_list(judge, List::Other, cases)
}

fn of_list(judge: &mut Judge, list: List, cases: &[Case]) -> Result<usize, Failure> {
    for case in cases {
        let item = Item::from(case);
        judge.item(&Item { list, ..item })?;
    }
    Ok(cases.len())
}

fn lines(judge: &mut Judge, lines: &[Line]) -> Result<usize, Failure> {
    for line in lines {
        judge.item(&line.item())?;
    }
    Ok(lines.len())
}
