//! Runs of a million trials and more.
//!
//! The sheets are by chance; their seeds were picked for the length of the run
//! and for how it ends, and both are checked. Each run has a budget that it
//! needs, one less, and more than it needs. Some have joints at inner boxes alone,
//! where the kind decides (02 M-104), the others on the rim too; every second one has
//! the second mark, with the same order of nets.

use crate::battery::Kind;
use crate::board::Board;
use crate::failure::{describe, Failure};
use crate::inside::inside;
use crate::judge::Judge;
use crate::knot::knot;
use crate::olds;
use model::sheet::parse;
use sheets::dead::Chances;
use sheets::random::{grow_nets, Growth};
use sheets::rows::any_row;
use sheets::{Design, Grid, Mark, Rng, Spread};

/// A long run makes more trials than this, over a million.
const FEWEST: u32 = 1 << 20;

/// The budget of the runs that are spent: a number of more than 24 bits.
const SPENT: u32 = (1 << 24) + 1;

/// A square full of nets by chance: no channel is overloaded.
#[derive(Clone, Copy)]
struct Crowd {
    side: u8,
    width: u8,
    nets: usize,
    fewest: usize,
    most: usize,
}

impl Crowd {
    const fn new(side: u8, width: u8, nets: usize, fewest: usize, most: usize) -> Self {
        Crowd {
            side,
            width,
            nets,
            fewest,
            most,
        }
    }

    fn design(&self, kind: u8, rng: &mut Rng) -> Design {
        let grid = Grid::new(self.side, self.side);
        let growth = Growth {
            nets: self.nets,
            fewest: self.fewest,
            most: self.most,
            limit: self.width.into(),
        };
        let design = Design::new(grid, kind, self.width, grow_nets(rng, grid, &growth));
        match kind {
            3 => design.with_rows([(); 6].map(|()| any_row(rng))),
            _ => design,
        }
    }
}

const SMALL: Crowd = Crowd::new(3, 6, 18, 2, 4);
const SHORT: Crowd = Crowd::new(3, 8, 22, 2, 4);
const MIDDLE: Crowd = Crowd::new(4, 6, 18, 4, 8);
const LONG: Crowd = Crowd::new(5, 12, 17, 10, 14);
const LARGE: Crowd = Crowd::new(8, 10, 40, 4, 12);

#[derive(Clone, Copy)]
enum Call {
    Route,
    Least,
    /// From an old ticket in which unplaced nets find no track left.
    Refit,
    /// From an old ticket with no net placed: one round has all trials.
    RefitAll,
}

use Call::{Least, Refit, RefitAll, Route};

/// Call, kind, nets, seed, and the number that ends the run.
type Run = (Call, u8, Crowd, u64, u32);

/// The square is the whole chip: rim boxes and inner ones.
const WHOLE: [Run; 18] = [
    (Route, 0, SHORT, 16, 0),
    (Route, 0, LARGE, 42, 0),
    (Route, 0, MIDDLE, 5, 15),
    (Route, 1, LONG, 57, 0),
    (Route, 2, LARGE, 34, 0),
    (Route, 3, LARGE, 29, 0),
    (Route, 3, MIDDLE, 27, 15),
    (Least, 0, SMALL, 22, 0),
    (Least, 0, LARGE, 32, 0),
    (Least, 1, LONG, 44, 0),
    (Least, 2, LONG, 1, 0),
    (Least, 3, LONG, 17, 0),
    (Refit, 0, SHORT, 16, 0),
    (Refit, 0, MIDDLE, 11, 15),
    (Refit, 1, MIDDLE, 83, 15),
    (Refit, 2, MIDDLE, 10, 15),
    (Refit, 3, LARGE, 9, 0),
    (RefitAll, 0, LARGE, 42, 0),
];

/// The rim of the chip is around the square: inner boxes alone.
const INSIDE: [Run; 18] = [
    (Route, 1, LONG, 29, 0),
    (Route, 1, LARGE, 31, 0),
    (Route, 1, LONG, 3, 15),
    (Route, 2, SHORT, 32, 0),
    (Route, 2, LARGE, 16, 0),
    (Route, 2, LONG, 3, 15),
    (Route, 3, LONG, 9, 0),
    (Route, 3, MIDDLE, 58, 15),
    (Least, 1, MIDDLE, 6, 0),
    (Least, 2, MIDDLE, 7, 0),
    (Least, 3, MIDDLE, 7, 0),
    (Refit, 1, LARGE, 36, 0),
    (Refit, 1, MIDDLE, 8, 15),
    (Refit, 2, SHORT, 31, 0),
    (Refit, 2, MIDDLE, 5, 15),
    (Refit, 3, MIDDLE, 54, 15),
    (RefitAll, 1, LONG, 3, 15),
    (RefitAll, 2, SMALL, 29, 0),
];

/// Runs inside that go far beyond a budget of `SPENT`.
const ENDLESS: [Run; 3] = [
    (Route, 0, SHORT, 1, 16),
    (Least, 1, LARGE, 0, 16),
    (Refit, 2, LONG, 0, 16),
];

/// Runs inside with a few dead wires (02 M-105).
const DEAD: [Run; 7] = [
    (Route, 0, SHORT, 50, 0),
    (Route, 1, LONG, 25, 0),
    (Route, 2, LONG, 3, 15),
    (Least, 1, MIDDLE, 15, 0),
    (Least, 3, MIDDLE, 16, 0),
    (Refit, 3, SHORT, 57, 0),
    (Refit, 2, MIDDLE, 20, 15),
];

/// How many runs there were, and the trials of the shortest and the longest.
pub fn run(judge: &mut Judge) -> Result<(usize, u32, u32), Failure> {
    let mut trials = Vec::new();
    let mut marks = Mark::BOTH.into_iter().cycle();
    let mut marked = |design: Design| match marks.next() {
        Some(Mark::Long) => design.spread(Spread::Crossed),
        _ => design,
    };
    for run in &WHOLE {
        trials.push(by_chance(judge, run, &mut marked, false)?);
    }
    let mut inside = |design| marked(inside(design));
    for run in INSIDE.iter().chain(&ENDLESS) {
        trials.push(by_chance(judge, run, &mut inside, false)?);
    }
    for run in &DEAD {
        trials.push(by_chance(judge, run, &mut inside, true)?);
    }
    let knot = knot();
    let (bytes, entries) = (knot.list().bytes(), knot.entry_count());
    for kind in [Kind::Route, Kind::Least, Kind::Refit(&vec![255; entries])] {
        trials.push(budgets(judge, Board::from(&bytes), entries, kind, 15)?);
    }
    let bytes = knot.by_rows().spread(Spread::Crossed).list().bytes();
    let board = Board::from(&bytes);
    trials.push(budgets(judge, board, entries, Kind::Least, 15)?);
    trials.sort_unstable();
    Ok((trials.len(), trials[0], trials[trials.len() - 1]))
}

/// `dead` says whether some wires are.
fn by_chance(
    judge: &mut Judge,
    run: &Run,
    place: &mut dyn FnMut(Design) -> Design,
    dead: bool,
) -> Result<u32, Failure> {
    let &(call, kind, crowd, seed, number) = run;
    let mut rng = Rng::new(seed);
    let design = place(crowd.design(kind, &mut rng));
    let bytes = design.relist(&mut rng).bytes();
    let sheet = parse(&bytes).expect("a good sheet");
    let dead = match dead {
        true => Chances::new(&design).few(&mut rng),
        false => Vec::new(),
    };
    let old = match call {
        Refit => olds::placed_to_the_last(&sheet, &dead, &mut rng),
        _ => olds::all_unplaced(&sheet),
    };
    let kind = match call {
        Route => Kind::Route,
        Least => Kind::Least,
        Refit | RefitAll => Kind::Refit(&old),
    };
    let board = Board::new(&bytes, &dead);
    budgets(judge, board, sheet.entry_count(), kind, number)
}

/// A run that ends with this number: with a budget beyond its need, with its
/// need and with one less. One that is spent is asked once.
fn budgets(
    judge: &mut Judge,
    board: Board,
    entries: usize,
    kind: Kind,
    number: u32,
) -> Result<u32, Failure> {
    let budget = if number == 16 { SPENT } else { u32::MAX };
    let ask = kind.ask(budget, entries);
    let outcome = judge.ask(board, &ask)?;
    let (answer, _) = outcome.answer();
    if answer.number != number || answer.trials <= FEWEST {
        let what = format!("this run is listed as a long one that ends with {number}");
        let failure = Failure::new(what, &describe(board, &ask, &[]));
        return Err(failure.with("both", outcome));
    }
    if number != 16 {
        for budget in [answer.trials, answer.trials - 1] {
            judge.ask(board, &kind.ask(budget, entries + 1))?;
        }
    }
    Ok(answer.trials)
}
