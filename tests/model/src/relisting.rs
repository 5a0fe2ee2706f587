//! Relistings, 01 "What demand 3 compares" and 02 M-102. Dead wires are no part of
//! a sheet: 02 M-105 compares relistings under the same list. Nor does the mark
//! count: as 02 M-106 is settled, two sheets of different marks with the same nets,
//! their numbers widened, are relistings too.

use crate::sheet::{Net, Sheet};
use std::collections::BTreeSet;

/// "Two accepted sheets are relistings of each other exactly when A, B, kind and
/// W agree, the net numbers are the same, and under each net number the channels
/// are the same and the joints, as pairs in either order, are the same." Kinds 3
/// agree only if their rows do.
pub fn are_relistings(one: &Sheet, other: &Sheet) -> bool {
    let alike = |net: &Net| {
        let same_number = other.numbered(net.number);
        same_number.is_some_and(|twin| same_net(net, twin))
    };
    one.chip == other.chip
        && one.kind == other.kind
        && one.width == other.width
        && one.nets.len() == other.nets.len()
        && one.nets.iter().all(alike)
}

fn same_net(one: &Net, other: &Net) -> bool {
    channels(one) == channels(other) && joints(one) == joints(other)
}

fn channels(net: &Net) -> BTreeSet<u32> {
    net.channels.iter().copied().collect()
}

/// Every joint in both orders.
fn joints(net: &Net) -> BTreeSet<(u32, u32)> {
    let both = |(a, b): (usize, usize)| {
        let (a, b) = (net.channels[a], net.channels[b]);
        [(a, b), (b, a)]
    };
    let places = net.joints.iter().map(|joint| joint.places);
    places.flat_map(both).collect()
}
