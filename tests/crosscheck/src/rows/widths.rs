//! Every width, under both marks: the rows at the ends in every column, and rows by chance, on sheets
//! whose least width is known and on crowded ones.

use super::shifts::toured;
use super::tour;
use crate::battery::{checking, whole, Kind};
use crate::board::Board;
use crate::coverage::rims::turns_inside;
use crate::failure::{describe, Failure};
use crate::judge::Judge;
use crate::removing;
use model::sheet::parse;
use sheets::random::{grow_nets, Growth};
use sheets::rows::{any_row, ENDS};
use sheets::{Answer, Design, Grid, Mark, Net, Rng, Rows, Spread};

/// How many sheets there were.
pub fn run(judge: &mut Judge, rng: &mut Rng) -> Result<usize, Failure> {
    let net = tour::tour(5);
    for width in 1..=32 {
        for turn in 0..6 {
            let mut ends = ENDS;
            ends.rotate_left(turn);
            let mark = Mark::BOTH[(turn + usize::from(width)) % 2];
            toured(judge, (width, mark), &ends, &net, rng)?;
        }
        for mark in Mark::BOTH {
            toured(judge, (width, mark), &rows(rng), &net, rng)?;
            filled(judge, (width, mark), rng)?;
            crowded(judge, (width, mark), rng)?;
        }
    }
    Ok(32 * (6 + 3 * Mark::BOTH.len()))
}

fn rows(rng: &mut Rng) -> Rows {
    [(); 6].map(|()| any_row(rng))
}

fn nets(rng: &mut Rng, nets: usize, most: usize, limit: usize) -> Vec<Net> {
    let growth = Growth {
        nets,
        fewest: 2,
        most,
        limit,
    };
    grow_nets(rng, grid(), &growth)
}

fn grid() -> Grid {
    Grid::new(4, 4)
}

fn under(design: Design, mark: Mark) -> Design {
    match mark {
        Mark::Short => design,
        Mark::Long => design.spread(Spread::Crossed),
    }
}

/// A tree that turns in an inner box, so that the rows matter.
fn tree(rng: &mut Rng) -> Net {
    loop {
        let nets = nets(rng, 1, 10, 1);
        let alone = Design::new(grid(), 0, 1, nets.clone());
        if turns_inside(&alone.list().bytes()) {
            return nets[0].clone();
        }
    }
}

/// As many nets as tracks, all through the same tree: whatever the boxes are, each
/// net takes the first home track that is left. That makes 1 + 2 + … + W trials,
/// and W is the least width.
fn filled(judge: &mut Judge, (width, mark): (u8, Mark), rng: &mut Rng) -> Result<(), Failure> {
    let tree = tree(rng);
    let net = |number| Net {
        number,
        ..tree.clone()
    };
    let nets = (1..=u32::from(width)).map(net).collect();
    let design = Design::new(grid(), 3, width, nets).with_rows(rows(rng));
    let design = under(design, mark);
    let bytes = design.relist(rng).bytes();
    let (entries, width) = (design.entry_count(), u32::from(width));
    let told = Answer {
        number: 0,
        width,
        trials: width * (width + 1) / 2,
        moved: 0,
    };
    let mut ticket = Vec::new();
    for kind in [Kind::Route, Kind::Least] {
        let ask = kind.ask(told.trials, entries);
        let outcome = judge.ask(&bytes, &ask)?;
        let (answer, output) = outcome.answer();
        if answer != told {
            let failure = Failure::new(
                "nets of one tree do not take the tracks in turn",
                &describe(&bytes, &ask, &[]),
            );
            return Err(failure.with("both", outcome));
        }
        ticket = output.to_vec();
        judge.ask(&bytes, &kind.ask(told.trials - 1, entries))?;
    }
    let sheet = parse(&bytes).expect("a good sheet");
    let board = Board::from(&bytes);
    checking(judge, board, &sheet, &ticket, rng)?;
    removing::out_and_in(judge, board, &sheet, &ticket, rng)
}

/// Nets by chance, up to as many in a channel as it has tracks.
fn crowded(judge: &mut Judge, (width, mark): (u8, Mark), rng: &mut Rng) -> Result<(), Failure> {
    let count = rng.between(2, 16);
    let nets = nets(rng, count, 6, width.into());
    let design = Design::new(grid(), 3, width, nets).with_rows(rows(rng));
    let design = under(design, mark);
    whole(judge, Board::from(&design.relist(rng).bytes()), rng)
}
