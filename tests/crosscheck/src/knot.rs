//! A sheet that is unroutable at every width, and takes trials to be so.
//!
//! It needs boxes that shift tracks: inner ones, Wilton or kind 3 with such rows.
//! With the other kinds, and on the rim, a net bars at most two home tracks of
//! another, so at width 32 the first 16 nets always find a track, and to try them
//! all takes more trials than any budget has.

use crate::inside::inside;
use sheets::{Design, Grid, Net, Rng};

/// The seeds of seven trees that bar one another's tracks at width 32.
const TREES: [u64; 7] = [5, 5265, 6080, 3851, 4008, 794, 1311];

/// Seven nets through all 32 channels between 7 by 3 inner boxes, and 25 nets that
/// fill one of these channels, so that every width below 32 is overloaded.
pub fn knot() -> Design {
    let grid = Grid::new(7, 3);
    let near = grid.neighbours();
    let mut nets: Vec<Net> = Vec::new();
    for (number, seed) in (1..).zip(TREES) {
        nets.push(tree(&mut Rng::new(seed), &near, number));
    }
    nets.extend((8..=32).map(|number| Net::chain(number, &[0])));
    inside(Design::new(grid, 1, 32, nets))
}

/// A tree through every channel, which grows mostly from its newest one.
fn tree(rng: &mut Rng, near: &[Vec<u16>], number: u32) -> Net {
    let mut net = Net::chain(number, &[rng.below(near.len()) as u16]);
    while net.channels.len() < near.len() {
        let newest = net.channels[net.channels.len() - 1];
        let from = if rng.chance(6, 10) {
            newest
        } else {
            *rng.pick(&net.channels)
        };
        let to = *rng.pick(&near[usize::from(from)]);
        if !net.channels.contains(&to) {
            net.channels.push(to);
            net.joints.push((from, to));
        }
    }
    net
}
