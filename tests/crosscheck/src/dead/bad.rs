//! Lists that are refused: 19 and 20 alone, both at once, and beside the numbers
//! before and after them.

use super::by_chance;
use crate::board::Board;
use crate::failure::Failure;
use crate::hurt;
use crate::judge::Judge;
use sheets::damage::{aims, damaged};
use sheets::dead::{harm, shuffled, Chances};
use sheets::{rows, Ask, Rng};

pub fn round(judge: &mut Judge, rng: &mut Rng) -> Result<(), Failure> {
    let (mut design, good) = by_chance(rng);
    let chances = Chances::new(&design);
    let of_sheet = match rng.below(4) {
        0 => vec![9],
        1 => vec![18],
        2 => aims(rng),
        _ => Vec::new(),
    };
    if of_sheet.contains(&18) {
        design = design.with_rows(rows::any(rng));
    }
    let sheet = design.relist(rng).bytes();
    let hurt = damaged(design.relist(rng), &of_sheet, rng);
    for numbers in [&[19][..], &[20], &[19, 20]] {
        let dead = harm(&chances, good.clone(), numbers, rng);
        hurt::every_call(judge, Board::new(&hurt, &dead), rng)?;
        for ask in &asks(design.entry_count(), rng) {
            judge.ask(Board::new(&sheet, &dead), ask)?;
            judge.ask(Board::new(&sheet, &shuffled(&dead, rng)), ask)?;
        }
    }
    Ok(())
}

/// The calls that take a list, with outputs and tickets that fit and that do not.
fn asks(entries: usize, rng: &mut Rng) -> [Ask; 4] {
    let budget = rng.below(100) as u32;
    let mut room = || match rng.chance(1, 2) {
        true => entries,
        false => rng.below(entries + 1),
    };
    let rooms = [room(), room(), room()];
    let mut ticket = |byte: u8| match rng.chance(1, 2) {
        true => vec![byte; entries],
        false => vec![byte; rng.below(entries + 3)],
    };
    [
        Ask::Check { ticket: ticket(0) },
        Ask::Route {
            budget,
            room: rooms[0],
        },
        Ask::Least {
            budget,
            room: rooms[1],
        },
        Ask::Refit {
            old: ticket(255),
            budget,
            room: rooms[2],
        },
    ]
}
