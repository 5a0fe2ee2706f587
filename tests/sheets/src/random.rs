//! Designs by chance, from sparse to full.

use crate::design::{Design, Net};
use crate::grid::Grid;
use crate::mark::Mark;
use crate::numbers::scattered;
use crate::rng::Rng;
use crate::rows;
use std::collections::BTreeSet;

/// How nets are grown.
pub struct Growth {
    pub nets: usize,
    pub fewest: usize,
    pub most: usize,
    /// No channel gets more nets than this.
    pub limit: usize,
}

/// Grows nets as chance trees; those for which no channel is left are dropped.
pub fn grow_nets(rng: &mut Rng, grid: Grid, growth: &Growth) -> Vec<Net> {
    let near = grid.neighbours();
    let mut loads = vec![0; near.len()];
    let numbers = net_numbers(rng, growth.nets);
    let mut nets = Vec::new();
    for number in numbers {
        let size = rng.between(growth.fewest, growth.most);
        let free = |channel: u16| loads[usize::from(channel)] < growth.limit;
        if let Some(net) = grow(rng, &near, number, size, free) {
            for &channel in &net.channels {
                loads[usize::from(channel)] += 1;
            }
            nets.push(net);
        }
    }
    nets
}

/// One chance tree of up to `size` channels.
fn grow(
    rng: &mut Rng,
    near: &[Vec<u16>],
    number: u32,
    size: usize,
    free: impl Fn(u16) -> bool,
) -> Option<Net> {
    let starts: Vec<u16> = (0..near.len() as u16).filter(|&c| free(c)).collect();
    if starts.is_empty() {
        return None;
    }
    let mut net = Net::chain(number, &[*rng.pick(&starts)]);
    let bushy = rng.chance(1, 2);
    let mut failures = 0;
    while net.channels.len() < size && failures < 20 {
        let from = if bushy || failures > 5 {
            *rng.pick(&net.channels)
        } else {
            net.channels[net.channels.len() - 1]
        };
        let to = *rng.pick(&near[usize::from(from)]);
        if free(to) && !net.channels.contains(&to) {
            net.channels.push(to);
            net.joints.push((from, to));
            failures = 0;
        } else {
            failures += 1;
        }
    }
    Some(net)
}

/// Different net numbers of 16 bits in a chance order: small, scattered, or at the
/// ends.
fn net_numbers(rng: &mut Rng, count: usize) -> Vec<u32> {
    let mut chosen = BTreeSet::new();
    let style = rng.below(3);
    while chosen.len() < count {
        chosen.insert(match style {
            0 => chosen.len() as u16 + 1,
            1 => rng.word(),
            _ => (rng.below(70) as u16).wrapping_sub(35),
        });
    }
    let mut numbers: Vec<u32> = chosen.into_iter().map(u32::from).collect();
    rng.shuffle(&mut numbers);
    numbers
}

fn assemble(rng: &mut Rng, grid: Grid, width: usize, growth: Growth) -> Design {
    let nets = grow_nets(rng, grid, &growth);
    let design = with_boxes(rng, Design::new(grid, 0, width as u8, nets));
    with_mark(rng, design)
}

/// The design with a mark by chance. Under the second one its numbers are any.
pub fn with_mark(rng: &mut Rng, mut design: Design) -> Design {
    if rng.chance(1, 2) {
        return design;
    }
    let numbers: Vec<u32> = design.nets.iter().map(|net| net.number).collect();
    for (net, number) in design.nets.iter_mut().zip(scattered(&numbers, rng)) {
        net.number = number;
    }
    design.with_mark(Mark::Long)
}

/// The design with a kind by chance, 0 to 3, and rows by chance for kind 3.
pub fn with_boxes(rng: &mut Rng, design: Design) -> Design {
    match rng.below(4) as u8 {
        3 => design.with_rows(rows::any(rng)),
        kind => design.with_kind(kind),
    }
}

/// How full a channel may get at this width: loosely, to the brim, or over it.
fn limit(rng: &mut Rng, width: usize) -> usize {
    match rng.below(8) {
        0 => 64,
        1 => width + 1,
        2 | 3 => width.div_ceil(2),
        _ => width,
    }
}

/// A design small enough for brute force, mostly crowded.
pub fn small(rng: &mut Rng) -> Design {
    // On 3 by 3 one box is inner, on the last two there are two.
    let grid = *rng.pick(&[
        Grid::new(2, 2),
        Grid::new(3, 2),
        Grid::new(2, 3),
        Grid::new(3, 3),
        Grid::new(3, 3),
        Grid::new(3, 3),
        Grid::new(4, 3),
        Grid::new(3, 4),
    ]);
    let width = *rng.pick(&[1, 2, 2, 2, 3, 3, 4]);
    let most = rng.between(1, 4);
    let growth = Growth {
        nets: *rng.pick(&[0, 1, 2, 3, 4, 5, 5, 6, 6, 7]),
        fewest: if rng.chance(2, 3) { most } else { 1 },
        most,
        limit: if rng.chance(1, 2) {
            width
        } else {
            limit(rng, width)
        },
    };
    assemble(rng, grid, width, growth)
}

/// A crowded design: every channel may be full, none is overloaded.
pub fn crowded(rng: &mut Rng) -> Design {
    let [columns, rows] = *rng.pick(&[[2, 2], [3, 3], [3, 3], [4, 3], [3, 4], [4, 4], [2, 4]]);
    let width = rng.between(2, 5);
    let most = rng.between(2, 6);
    let growth = Growth {
        nets: rng.between(width, 14),
        fewest: rng.between(1, most),
        most,
        limit: width,
    };
    assemble(rng, Grid::new(columns, rows), width, growth)
}

/// A design of any size, more often a small one.
pub fn any(rng: &mut Rng) -> Design {
    let (side, nets, entries, width) = match rng.below(20) {
        0..=8 => (4, 8, 5, 5),
        9..=15 => (5, 16, 10, 8),
        16..=18 => (8, 32, 16, 16),
        _ => (16, 64, 32, 32),
    };
    // A side of 2 leaves no inner box; that is kept for one chip in five or so.
    let shortest = if rng.chance(1, 5) { 2 } else { 3 };
    let mut length = || rng.between(shortest, side) as u8;
    let grid = Grid::new(length(), length());
    let width = if rng.chance(1, 30) {
        *rng.pick(&[1, 31, 32])
    } else {
        rng.between(1, width)
    };
    let most = rng.between(1, entries);
    let growth = Growth {
        nets: rng.between(0, nets),
        fewest: if rng.chance(1, 4) { most } else { 1 },
        most,
        limit: limit(rng, width),
    };
    assemble(rng, grid, width, growth)
}
