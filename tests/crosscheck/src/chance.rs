//! The run by chance.

use crate::board::Board;
use crate::failure::Failure;
use crate::judge::Judge;
use crate::olds::placed_to_the_last;
use crate::{battery, dead, forms, hurt, relist, rows, small};
use model::sheet::parse;
use sheets::dead::Wire;
use sheets::{random, Design, Rng};
use std::collections::BTreeSet;

/// Rounds until this many calls have been made.
pub fn run(judge: &mut Judge, seed: u64, calls: u64) -> Result<(), Failure> {
    let mut rng = Rng::new(seed);
    while judge.calls < calls {
        round(judge, &mut rng)?;
    }
    Ok(())
}

fn round(judge: &mut Judge, rng: &mut Rng) -> Result<(), Failure> {
    match rng.below(14) {
        0 => hurt::noisy(judge, rng),
        1 => hurt::random_bytes(judge, rng),
        2 | 3 => hurt::aimed(judge, rng),
        4 => small::settle(judge, rng),
        5 => relist::pair(judge, rng),
        6 => forms::round(judge, rng),
        7 => rows::twins::round(judge, rng),
        11..=13 => dead::round(judge, rng),
        8 => {
            let design = random::crowded(rng);
            let (design, _) = planted(design, rng);
            battery::crowded(judge, Board::from(&listed(design, rng)), rng)
        }
        9 => {
            let design = random::any(rng);
            let (design, _) = planted(design, rng);
            battery::whole(judge, Board::from(&listed(design, rng)), rng)
        }
        _ => {
            let design = random::any(rng);
            battery::whole(judge, Board::from(&listed(design, rng)), rng)
        }
    }
}

fn listed(design: Design, rng: &mut Rng) -> Vec<u8> {
    design.relist(rng).bytes()
}

/// A design that has a right ticket: of a given one, the nets that find room on
/// chance tracks. Beside it stand the wires of that ticket.
pub fn planted(mut design: Design, rng: &mut Rng) -> (Design, BTreeSet<Wire>) {
    let sheet = parse(&design.list().bytes()).expect("a good sheet");
    let old = placed_to_the_last(&sheet, &[], rng);
    let mut kept = sheet.nets.iter().map(|net| old[net.first] != 255);
    design.nets.retain(|_| kept.next() == Some(true));
    let channels = sheet.nets.iter().flat_map(|net| &net.channels);
    let held = channels.zip(&old).filter(|wire| *wire.1 != 255);
    let held = held.map(|(&channel, &track)| (channel as u16, track));
    (design, held.collect())
}
