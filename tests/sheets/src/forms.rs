//! Sheets for the standard form, 02 M-101: a fixed one whose trees have another
//! order in every way of walking them, branching ones by chance, and designs
//! that differ from a given one in one thing.

use crate::design::{Design, Net};
use crate::grid::Grid;
use crate::mark::Mark;
use crate::random::{grow_nets, with_boxes, with_mark, Growth};
use crate::raw::{Raw, Record, ROOT};
use crate::rng::Rng;

/// Three nets on a chip of 3 by 3, kind 1, W 4, in no standard order.
///
/// Net 300 has the joints 0-6, 0-7, 6-9, 9-2, 9-4, 7-3 and 3-11. From its home,
/// channel 0: breadth first 0 6 7 9 3 2 4 11, depth first 0 6 9 2 4 7 3 11, and
/// always the lowest that is open 0 6 7 3 9 2 4 11. Channel 2 also meets 6, 7
/// and 3, without a joint. Neither the nets' order here, nor that of their homes
/// (300, 7, 512), nor that of their low bytes (512, 7, 300) is that of their
/// numbers.
pub fn example() -> Raw {
    let branching = [
        (11, ROOT),
        (3, 0),
        (7, 1),
        (0, 2),
        (6, 3),
        (9, 4),
        (4, 5),
        (2, 5),
    ];
    let records = vec![
        Record::new(512, &[(5, ROOT)]),
        Record::new(300, &branching),
        Record::new(7, &[(8, ROOT), (1, 0)]),
    ];
    Raw::new(3, 3, 1, 4, records)
}

/// A few nets of `fewest` to `most` channels, where the chip has room.
pub fn trees(rng: &mut Rng, fewest: usize, most: usize) -> Design {
    let grid = Grid::new(rng.between(2, 4) as u8, rng.between(2, 4) as u8);
    let growth = Growth {
        nets: rng.between(1, 4),
        fewest,
        most,
        limit: 64,
    };
    let nets = grow_nets(rng, grid, &growth);
    let width = rng.between(1, 32) as u8;
    let design = with_boxes(rng, Design::new(grid, 0, width, nets));
    with_mark(rng, design)
}

/// Up to two nets with one of three numbers, on the smallest chip: so few designs that
/// two by chance are often the same. Its channels form a ring, so four of them have
/// four trees. Under the second mark two numbers share the low half, two the high one.
pub fn tiny(rng: &mut Rng) -> Design {
    let growth = Growth {
        nets: rng.below(3),
        fewest: 1,
        most: 4,
        limit: 64,
    };
    let grid = Grid::new(2, 2);
    let mut nets = grow_nets(rng, grid, &growth);
    let mark = *rng.pick(&Mark::BOTH);
    let mut numbers = match mark {
        Mark::Short => [1, 2, 3],
        Mark::Long => [1, 65_537, 65_538],
    };
    rng.shuffle(&mut numbers);
    for (net, number) in nets.iter_mut().zip(numbers) {
        net.number = number;
    }
    Design::new(grid, 0, 1, nets).with_mark(mark)
}

/// The same channels, but one joint between two others of them; `None` if no
/// net has another tree that is so near.
pub fn joint_moved(design: &Design, rng: &mut Rng) -> Option<Design> {
    let near = design.grid.neighbours();
    let mut all = Vec::new();
    for (place, net) in design.nets.iter().enumerate() {
        for gone in 0..net.joints.len() {
            let part = cut_off(net, gone);
            let other_side = |c: &&u16| !part.contains(c);
            for &a in &part {
                let met = net
                    .channels
                    .iter()
                    .filter(|c| near[usize::from(a)].contains(c));
                let pairs = met.filter(other_side).map(|&b| (a, b));
                let new = pairs.filter(|&(a, b)| !has_joint(net, a, b));
                all.extend(new.map(|pair| (place, gone, pair)));
            }
        }
    }
    let (place, gone, pair) = *pick(&all, rng)?;
    let mut other = design.clone();
    other.nets[place].joints[gone] = pair;
    Some(other)
}

/// The channels that hang on the first one of a joint without this joint.
fn cut_off(net: &Net, gone: usize) -> Vec<u16> {
    let mut part = vec![net.joints[gone].0];
    let mut at = 0;
    while at < part.len() {
        for (place, &(a, b)) in net.joints.iter().enumerate() {
            for (here, there) in [(a, b), (b, a)] {
                if place != gone && here == part[at] && !part.contains(&there) {
                    part.push(there);
                }
            }
        }
        at += 1;
    }
    part
}

fn has_joint(net: &Net, a: u16, b: u16) -> bool {
    net.joints.contains(&(a, b)) || net.joints.contains(&(b, a))
}

/// One channel of one net replaced, with its joints, by one that the net lacks
/// and that meets all that it had joints to.
pub fn channel_changed(design: &Design, rng: &mut Rng) -> Option<Design> {
    let near = design.grid.neighbours();
    let mut all = Vec::new();
    for (place, net) in design.nets.iter().enumerate() {
        for &old in &net.channels {
            let others = net.channels.iter().filter(|&&c| has_joint(net, old, c));
            let others: Vec<u16> = others.copied().collect();
            let meets_all = |new: &u16| others.iter().all(|c| near[usize::from(*c)].contains(new));
            let lacked = (0..near.len() as u16).filter(|c| !net.channels.contains(c));
            all.extend(lacked.filter(meets_all).map(|new| (place, old, new)));
        }
    }
    let (place, old, new) = *pick(&all, rng)?;
    let changed = |c: &mut u16| {
        if *c == old {
            *c = new;
        }
    };
    let mut other = design.clone();
    let net = &mut other.nets[place];
    net.channels.iter_mut().for_each(changed);
    for (a, b) in &mut net.joints {
        changed(a);
        changed(b);
    }
    Some(other)
}

/// One net with a number that no net has: at times one that differs in one half alone.
pub fn number_changed(design: &Design, rng: &mut Rng) -> Option<Design> {
    let used = |number: u32| design.nets.iter().any(|net| net.number == number);
    let mut other = design.clone();
    let net = rng.below(design.nets.len().max(1));
    let net = other.nets.get_mut(net)?;
    let old = net.number;
    let near = match design.mark {
        Mark::Short => [(old + 1) & 0xFFFF, old ^ 256, rng.word().into()],
        Mark::Long => {
            let halves = [old ^ 0x1_0000, old ^ 0x8000_0000, old ^ 1];
            [*rng.pick(&halves), old.rotate_left(16), rng.draw() as u32]
        }
    };
    net.number = *near.iter().find(|number| !used(**number))?;
    Some(other)
}

fn pick<'a, T>(all: &'a [T], rng: &mut Rng) -> Option<&'a T> {
    (!all.is_empty()).then(|| rng.pick(all))
}
