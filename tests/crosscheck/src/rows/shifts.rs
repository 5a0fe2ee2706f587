//! All shifts and both signs in every column, at the narrowest widths and the
//! widest: the tour on every home track.

use super::tour;
use crate::failure::Failure;
use crate::judge::Judge;
use crate::{battery, olds, removing};
use model::lay::lays;
use model::sheet::parse;
use sheets::{Ask, Design, Mark, Net, Rng, Row, Rows, Spread};

const WIDTHS: [u8; 5] = [1, 2, 3, 31, 32];

/// How many pairs of a row and a column there were, over all widths.
pub fn run(judge: &mut Judge, rng: &mut Rng) -> Result<usize, Failure> {
    let all = all_rows();
    let net = tour::tour(5);
    let marks = Mark::BOTH.into_iter().cycle();
    for width in WIDTHS {
        for (rows, mark) in all.iter().zip(marks.clone()) {
            toured(judge, (width, mark), rows, &net, rng)?;
        }
    }
    Ok(WIDTHS.len() * all.len() * 6)
}

/// The tour with these rows.
pub fn toured(
    judge: &mut Judge,
    (width, mark): (u8, Mark),
    rows: &Rows,
    net: &Net,
    rng: &mut Rng,
) -> Result<(), Failure> {
    let design = Design::new(tour::grid(), 3, width, vec![net.clone()]);
    let design = match mark {
        Mark::Short => design,
        Mark::Long => design.spread(Spread::Crossed),
    };
    let bytes = design.with_rows(*rows).relist(rng).bytes();
    let asked = every_track(judge, &bytes, rng);
    asked.map_err(|failure| failure.with("rows", format!("{rows:?}")))
}

/// As many sheets' rows as there are rows: each of these in each column once, and
/// no two columns alike.
fn all_rows() -> Vec<Rows> {
    let signs = |shift| [false, true].map(|minus| Row { minus, shift });
    let single: Vec<Row> = (-32..32).flat_map(signs).collect();
    let at = |place: usize| single[place % single.len()];
    let rows = |first: usize| [0, 21, 42, 63, 84, 105].map(|more| at(first + more));
    (0..single.len()).map(rows).collect()
}

/// The net on each home track is right for Check, stays there in Refit and can be
/// taken out of it; Route and Least lay it.
fn every_track(judge: &mut Judge, bytes: &[u8], rng: &mut Rng) -> Result<(), Failure> {
    let sheet = parse(bytes).expect("a good sheet");
    let (entries, budget) = (sheet.entry_count(), 40);
    for ticket in lays(&sheet, sheet.width, &sheet.nets[0]) {
        judge.ask(
            bytes,
            &Ask::Check {
                ticket: ticket.clone(),
            },
        )?;
        judge.ask(bytes, &battery::Kind::Refit(&ticket).ask(budget, entries))?;
        if rng.chance(1, 8) {
            judge.ask(
                bytes,
                &removing::ask(&ticket, sheet.nets[0].number, entries),
            )?;
        }
        if rng.chance(1, 4) {
            let ticket = olds::mutated(&ticket, &sheet, rng);
            judge.ask(bytes, &Ask::Check { ticket })?;
        }
    }
    judge.ask(bytes, &battery::Kind::Route.ask(budget, entries))?;
    judge.ask(bytes, &battery::Kind::Least.ask(budget, entries))?;
    Ok(())
}

#[cfg(test)]
mod tests {
    use super::all_rows;

    #[test]
    fn every_row_in_every_column() {
        let all = all_rows();
        assert_eq!(all.len(), 128);
        for column in 0..6 {
            for (place, rows) in all.iter().enumerate() {
                let earlier = &all[..place];
                assert!(earlier.iter().all(|other| other[column] != rows[column]));
                assert!((0..column).all(|other| rows[other] != rows[column]));
            }
        }
    }
}
