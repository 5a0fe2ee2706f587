//! The box table at width 3, worked out by hand, asked through Check; and boxes by
//! rows, 02 M-102. All are inner boxes, 02 M-104; `rim` has the others.

mod calls;
mod rows;

pub use calls::row_calls;
pub use rows::row_cases;

use crate::case::{Answer, Ask, Case, Told};
use crate::design::{Design, Net};
use crate::grid::Grid;

const WIDTH: u8 = 3;

/// The four channels of the middle box of a 3 by 3 chip.
const LEFT: u16 = 2;
const RIGHT: u16 = 3;
const BOTTOM: u16 = 7;
const TOP: u16 = 10;

const STRAIGHT: [u8; 3] = [0, 1, 2];
const TURNED: [u8; 3] = [2, 1, 0];

/// Kind, two channels, and for each track of the first its partner in the second.
#[rustfmt::skip]
const TABLE: [(u8, u16, u16, [u8; 3]); 18] = [
    (0, LEFT, RIGHT, STRAIGHT),
    (0, TOP, BOTTOM, STRAIGHT),
    (0, LEFT, TOP, STRAIGHT),
    (0, TOP, RIGHT, STRAIGHT),
    (0, RIGHT, BOTTOM, STRAIGHT),
    (0, BOTTOM, LEFT, STRAIGHT),
    (1, LEFT, RIGHT, STRAIGHT),
    (1, TOP, BOTTOM, STRAIGHT),
    (1, LEFT, TOP, [0, 2, 1]),
    (1, TOP, RIGHT, [1, 2, 0]),
    (1, RIGHT, BOTTOM, [1, 0, 2]),
    (1, BOTTOM, LEFT, [1, 2, 0]),
    (2, LEFT, RIGHT, STRAIGHT),
    (2, TOP, BOTTOM, STRAIGHT),
    (2, LEFT, TOP, TURNED),
    (2, TOP, RIGHT, STRAIGHT),
    (2, RIGHT, BOTTOM, TURNED),
    (2, BOTTOM, LEFT, STRAIGHT),
];

/// Every pair of sides, of tracks, and both orders of listing.
pub fn cases() -> Vec<Case> {
    let mut cases = Vec::new();
    for (kind, first, second, partners) in TABLE {
        for i in 0..WIDTH {
            for j in 0..WIDTH {
                let number = if partners[i as usize] == j { 0 } else { 12 };
                let told = Told::Number(number);
                let there = pair(kind, first, second);
                let name = format!("box kind {kind}, {first}.{i} {second}.{j}");
                cases.push(Case::new(&*name, there, check(i, j), told.clone()));
                let back = pair(kind, second, first);
                let name = format!("{name}, listed backwards");
                cases.push(Case::new(name, back, check(j, i), told));
            }
        }
    }
    cases
}

/// The sheet of one net: two channels and their joint.
fn pair(kind: u8, first: u16, second: u16) -> Vec<u8> {
    let net = Net::chain(1, &[first, second]);
    let design = Design::new(Grid::new(3, 3), kind, WIDTH, vec![net]);
    design.list().bytes()
}

fn check(i: u8, j: u8) -> Ask {
    Ask::Check { ticket: vec![i, j] }
}

/// The Wilton box read from its other end by the search: the home is right of the
/// box, and right 0 is top 2.
pub fn other_end() -> Vec<Case> {
    let there = || pair(1, RIGHT, TOP);
    let back = || pair(1, TOP, RIGHT);
    let told = |written: [u8; 2], width, trials| Told::Answer {
        answer: Answer {
            number: 0,
            width,
            trials,
            moved: 0,
        },
        written: written.to_vec(),
    };
    let route = || Ask::Route { budget: 1, room: 2 };
    let least = || Ask::Least { budget: 1, room: 2 };
    let refit = |old: [u8; 2]| Ask::Refit {
        old: old.to_vec(),
        budget: 9,
        room: 2,
    };
    let name = "Wilton from its other end";
    vec![
        Case::new(name, there(), route(), told([0, 2], 3, 1)),
        Case::new(name, back(), route(), told([2, 0], 3, 1)),
        Case::new(name, there(), least(), told([0, 0], 1, 1)),
        Case::new(name, there(), refit([2, 1]), told([2, 1], 3, 3)),
        Case::new(name, back(), refit([0, 1]), told([0, 1], 3, 2)),
        Case::refused(name, back(), refit([1, 0]), 12),
    ]
}
