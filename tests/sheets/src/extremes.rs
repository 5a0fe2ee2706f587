//! The largest, smallest and fullest designs. Those of kind 3 have the rows
//! `ENDS`.

use crate::design::{Design, Net};
use crate::grid::Grid;
use crate::mark::Mark;
use crate::numbers::Spread;
use crate::random::{grow_nets, Growth};
use crate::rng::Rng;
use crate::rows::ENDS;

/// Nets of equal channels: `entries` in a row, up the first columns of 16 by 16.
pub fn alike(nets: u32, entries: usize, kind: u8, width: u8) -> Design {
    let grid = Grid::new(16, 16);
    let up = (0..15).map(|r| grid.top_of(0, r));
    let across = [grid.right_of(0, 15)];
    let down = (0..15).rev().map(|r| grid.top_of(1, r));
    let on = [grid.right_of(1, 0)];
    let channels: Vec<u16> = up.chain(across).chain(down).chain(on).collect();
    let nets = (1..=nets).map(|number| Net::chain(number, &channels[..entries]));
    Design::new(grid, kind, width, nets.collect())
}

/// Nets of equal channels that turn in every box and pass none of the rim: in steps
/// from (1, 1) up to (14, 14), then down beside these, 32 channels if all are taken.
/// `alike` turns on the rim alone.
pub fn winding(nets: u32, entries: usize, kind: u8, width: u8) -> Design {
    let grid = Grid::new(16, 16);
    let up = (1..14).flat_map(|k| [grid.right_of(k, k), grid.top_of(k + 1, k)]);
    let down = [13, 12, 11].map(|k| [grid.right_of(k, k + 1), grid.top_of(k, k)]);
    let channels: Vec<u16> = up.chain(down.concat()).collect();
    let nets = (1..=nets).map(|number| Net::chain(number, &channels[..entries]));
    Design::new(grid, kind, width, nets.collect())
}

/// As many nets as may be, each in a channel of its own.
fn spread(kind: u8, width: u8) -> Design {
    let nets = (0..64).map(|n| Net::chain(64 - u32::from(n), &[n * 7]));
    Design::new(Grid::new(16, 16), kind, width, nets.collect())
}

/// `count` nets of one channel.
fn stacked(count: u32, width: u8) -> Design {
    let nets = (0..count).map(|n| Net::chain(n * 1000, &[3]));
    Design::new(Grid::new(2, 2), 1, width, nets.collect())
}

/// 64 nets of 32 entries as chance trees, no channel with more than `limit` nets.
fn full(kind: u8, width: u8, limit: usize) -> Design {
    let mut rng = Rng::new(u64::from(kind) * 100 + u64::from(width));
    let growth = Growth {
        nets: 64,
        fewest: 32,
        most: 32,
        limit,
    };
    let grid = Grid::new(16, 16);
    loop {
        let nets = grow_nets(&mut rng, grid, &growth);
        let whole = nets.len() == 64 && nets.iter().all(|net| net.channels.len() == 32);
        if whole {
            return Design::new(grid, kind, width, nets);
        }
    }
}

/// Four channels of one box, joined in all three shapes a net can have there.
fn one_box(kind: u8, width: u8) -> Design {
    let (left, right, bottom, top) = (2, 3, 7, 10);
    let nets = vec![
        Net::star(4, &[left, right, bottom, top]),
        Net::chain(3, &[left, top, right, bottom]),
        Net::chain(2, &[top, left, bottom, right]),
    ];
    Design::new(Grid::new(3, 3), kind, width, nets)
}

/// Half the width's nets left of a box, half on top of it, and a last net in
/// both channels. With the others on every track in turn, or each half on the
/// first tracks of a universal box, no track is left for the last net.
fn bridge(kind: u8, width: u8, (left, top): (u16, u16)) -> Design {
    let last = u32::from(width);
    let half = last / 2;
    let side = |n: u32| if n < half { left } else { top };
    let single = |n: u32| Net::chain(n, &[side(n)]);
    let mut nets: Vec<Net> = (0..last).map(single).collect();
    nets.push(Net::chain(last, &[left, top]));
    Design::new(Grid::new(3, 3), kind, width, nets)
}

/// Each design under both marks: under the second one its numbers are spread.
pub fn both() -> Vec<[(String, Design); 2]> {
    let all = designs().into_iter().zip(Spread::FAR.into_iter().cycle());
    let both = |((name, design), spread): ((String, Design), Spread)| {
        let long = (
            format!("{name}{}", Mark::Long.tag()),
            design.clone().spread(spread),
        );
        [(name, design), long]
    };
    all.map(both).collect()
}

pub fn designs() -> Vec<(String, Design)> {
    let mut all: Vec<(String, Design)> = Vec::new();
    let mut add = |name: String, design: Design| {
        let by_rows = design.kind == 3;
        all.push((
            name,
            if by_rows {
                design.with_rows(ENDS)
            } else {
                design
            },
        ));
    };
    for (columns, rows, width) in [(2, 2, 1), (2, 16, 32), (16, 2, 1), (16, 16, 32)] {
        for kind in [2, 3] {
            let none = Design::new(Grid::new(columns, rows), kind, width, Vec::new());
            let name = format!("no nets, {columns} by {rows}, kind {kind}, W {width}");
            add(name, none);
        }
    }
    for kind in 0..4 {
        for width in [1, 2, 31, 32] {
            let tag = format!("kind {kind}, W {width}");
            add(format!("one net of 32, {tag}"), alike(1, 32, kind, width));
            add(
                format!("64 nets of 32 alike, {tag}"),
                alike(64, 32, kind, width),
            );
            add(
                format!("one net winding, {tag}"),
                winding(1, 32, kind, width),
            );
            add(format!("64 nets spread, {tag}"), spread(kind, width));
            add(format!("64 nets of 32 grown, {tag}"), full(kind, width, 32));
            add(format!("one box, {tag}"), one_box(kind, width));
            add(format!("bridge, {tag}"), bridge(kind, width, (2, 10)));
            add(
                format!("bridge on the rim, {tag}"),
                bridge(kind, width, (0, 7)),
            );
        }
        add(format!("32 nets of 32 alike, kind {kind}"), {
            alike(32, 32, kind, 32)
        });
        add(format!("32 nets of 32 winding, kind {kind}"), {
            winding(32, 32, kind, 32)
        });
        add(format!("grown to W 8, kind {kind}"), full(kind, 8, 8));
        add(format!("grown to W 12, kind {kind}"), full(kind, 12, 10));
    }
    for count in [1, 2, 31, 32, 33, 64] {
        for width in [1, 31, 32] {
            let name = format!("{count} nets in one channel, W {width}");
            add(name, stacked(count, width));
        }
    }
    all
}
