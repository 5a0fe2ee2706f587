//! The sheets: hard ones to measure the speed of Route, the largest ones for
//! Standard, deep ones to measure the stack.
//!
//! Seeds and sizes of the hard ones were picked so that a run takes ten to fifty
//! million trials.
#![forbid(unsafe_code)]

use crate::design::Design;
use std::ops::Range;

pub struct Sheet {
    pub name: &'static str,
    pub budget: u32,
    pub bytes: Vec<u8>,
}

const MILLION: u32 = 1_000_000;

/// Nets of 2 to 4 channels (short), then of 10 to 32 (long).
pub fn hard() -> Vec<Sheet> {
    let mut sheets = Vec::new();
    let mut add = |name, budget, design: Design| {
        sheets.push(Sheet {
            name,
            budget: budget * MILLION,
            bytes: design.shuffled(),
        });
    };

    // Two nets that share a channel, then the clique: 8 + 8*8 + 8*7*876,808.
    let mut design = Design::new(16, 0, 8, 1);
    design.path(&[0, 1]);
    design.path(&[1, 2]);
    design.clique(8, 8);
    design.crowd(53, 2..5, 0..16, 0..16);
    add("short, subset, clique", 50, design);

    let mut design = Design::new(16, 0, 10, 1);
    design.crowd(53, 2..5, 0..16, 0..16);
    design.clique(8, 8);
    add("short, subset, late clique", 40, design);

    // Inner boxes only: the kind is asked for every joint.
    let design = crowded((5, 1, 8, 1), 22, 2..5, 1..4);
    add("short, Wilton, inner boxes", 50, design);
    // Boxes on the rim too. A ticket is found, which a wrong rim would change.
    let design = crowded((4, 2, 10, 37), 48, 2..5, 0..4);
    add("short, universal, with rim", 50, design);

    let mut design = Design::new(16, 2, 16, 1);
    design.crowd(28, 2..5, 0..16, 4..16);
    design.crowd(36, 2..5, 6..9, 0..3);
    add("short, universal, full chip", 40, design);

    let design = crowded((5, 0, 8, 3), 18, 10..15, 0..5);
    add("long, subset, small chip", 50, design);
    let design = crowded((5, 1, 12, 15), 18, 10..15, 0..5);
    add("long, Wilton, with rim", 50, design);
    let design = crowded((6, 1, 16, 10), 14, 11..18, 1..5);
    add("long, Wilton, inner boxes", 50, design);
    let design = crowded((16, 2, 24, 1), 64, 20..33, 4..11);
    add("long, universal, full chip", 20, design);
    let design = crowded((16, 1, 32, 1), 64, 32..33, 4..11);
    add("longest, Wilton, full chip", 20, design);

    sheets
}

/// Nets by chance in a square window, on a chip of side, kind, width and seed.
fn crowded(
    (side, kind, width, seed): (usize, u8, usize, u64),
    nets: usize,
    sizes: Range<usize>,
    window: Range<usize>,
) -> Design {
    let mut design = Design::new(side, kind, width, seed);
    design.crowd(nets, sizes, window.clone(), window);
    design
}

/// The largest sheets, 64 nets of 32 entries, records and entries in an order by chance.
pub fn largest() -> [Vec<u8>; 8] {
    std::array::from_fn(|seed| {
        let design = crowded((16, 1, 32, seed as u64), 64, 32..33, 4..11);
        design.shuffled()
    })
}

pub struct Old {
    pub sheet: Vec<u8>,
    pub ticket: Vec<u8>,
}

/// 64 nets and 32 tracks, all of them needed: Route and Least place all nets.
/// With the old ticket Refit has to move one net for the 63rd, in round 1.
pub fn deep() -> Old {
    let mut design = Design::new(16, 1, 32, 1);
    for _ in 0..31 {
        design.path(&[0]);
    }
    for _ in 0..31 {
        design.path(&[1]);
    }
    design.path(&[0, 1]);
    design.path(&[3, 4]);
    let ticket = (0..31).chain(1..32).chain([255; 4]).collect();
    Old {
        sheet: design.bytes(),
        ticket,
    }
}

/// 64 nets and 2 tracks: five nets that meet no other, and a ring of 59, an odd
/// number, around the chip. Refit makes all its 59 rounds, each 64 nets deep.
pub fn rounds() -> Old {
    let mut design = Design::new(16, 0, 2, 1);
    let grid = design.grid;
    for row in 5..10 {
        design.path(&[grid.right_of(5, row)]);
    }
    let mut ring: Vec<usize> = (0..15).map(|col| grid.right_of(col, 0)).collect();
    ring.extend((0..15).map(|row| grid.above(15, row)));
    ring.extend((0..15).rev().map(|col| grid.right_of(col, 15)));
    ring.extend((0..15).rev().map(|row| grid.above(0, row)));
    design.path(&ring[0..3]);
    for place in 2..59 {
        design.path(&ring[place..place + 2]);
    }
    design.path(&[ring[59], ring[0]]);
    let mut ticket = vec![255; 5];
    ticket.extend([0; 3]);
    for place in 1..58 {
        ticket.extend([place % 2; 2]);
    }
    ticket.extend([255; 2]);
    Old {
        sheet: design.bytes(),
        ticket,
    }
}
