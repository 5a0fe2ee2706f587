//! Lists of dead wires for tests, by hand and by chance.
#![allow(dead_code)]

use model::sheet::{parse, Net, Sheet};
use model::ticket::UNPLACED;
use sheets::{random, Design, Rng};
use std::collections::BTreeSet;

/// A wire: its channel and track.
pub type Wire = (u16, u8);

/// The list with these items in this order.
pub fn list(wires: &[Wire]) -> Vec<u8> {
    let item = |&(channel, track): &Wire| {
        let [low, high] = channel.to_le_bytes();
        [low, high, track]
    };
    wires.iter().flat_map(item).collect()
}

/// All wires of the channels from `first` to `last` with these tracks.
pub fn block(first: u16, last: u16, tracks: std::ops::Range<u8>) -> Vec<Wire> {
    let channels = first..=last;
    let wires = channels.flat_map(|c| tracks.clone().map(move |t| (c, t)));
    wires.collect()
}

/// The ways by chance to make a list.
pub const STYLES: [&str; 7] = [
    "empty",
    "one wire",
    "several",
    "nearly all",
    "whole channels",
    "at and above W",
    "a track everywhere",
];

/// A list by chance without a repeat, in a chance order.
pub fn by_chance(rng: &mut Rng, style: usize, channels: u16, width: u8) -> Vec<Wire> {
    let mut wires = BTreeSet::new();
    let near = |rng: &mut Rng| match rng.below(5) {
        0 => rng.below(32) as u8,
        _ => rng.below(usize::from(width)) as u8,
    };
    let channel = |rng: &mut Rng| rng.below(channels.into()) as u16;
    match style {
        0 => {}
        1 => {
            wires.insert((channel(rng), near(rng)));
        }
        2 => {
            for _ in 0..rng.between(2, 10) {
                wires.insert((channel(rng), near(rng)));
            }
        }
        3 => {
            let last = if rng.chance(1, 2) { width } else { 32 };
            wires.extend(block(0, channels - 1, 0..last));
            for _ in 0..rng.below(3 * usize::from(channels)) {
                wires.remove(&(channel(rng), near(rng)));
            }
        }
        4 => {
            for _ in 0..rng.between(1, 2) {
                let c = channel(rng);
                let last = rng.between(1, usize::from(width)) as u8;
                wires.extend(block(c, c, 0..if rng.chance(1, 3) { 32 } else { last }));
            }
        }
        // At W 32 there are none.
        5 if width > 31 => {}
        5 => {
            for _ in 0..rng.between(1, 12) {
                let track = rng.between(width.into(), 31) as u8;
                wires.insert((channel(rng), *rng.pick(&[track, width])));
            }
        }
        _ => {
            let track = near(rng);
            wires.extend(block(0, channels - 1, track..track + 1));
        }
    }
    let mut wires: Vec<Wire> = wires.into_iter().collect();
    rng.shuffle(&mut wires);
    wires
}

/// A sheet by chance with a list: the style, the sheet's bytes, the sheet, the list.
pub type Drawn = (usize, Vec<u8>, Sheet, Vec<u8>);

/// Small sheets by chance, the styles in turn.
pub fn small(seed: u64, count: usize) -> impl Iterator<Item = Drawn> {
    let mut rng = Rng::new(seed);
    (0..count).map(move |place| {
        let design = random::small(&mut rng);
        let bytes = design.relist(&mut rng).bytes();
        let style = place % STYLES.len();
        let wires = chance_for(&design, style, &mut rng);
        let sheet = parse(&bytes).expect("a good sheet");
        (style, bytes, sheet, list(&wires))
    })
}

/// A list by chance beside a design.
pub fn chance_for(design: &Design, style: usize, rng: &mut Rng) -> Vec<Wire> {
    by_chance(rng, style, design.grid.channel_count(), design.width)
}

/// An old ticket that is accepted beside this list: nets with chance home tracks as
/// far as they fit, the others unplaced.
pub fn old_ticket(sheet: &Sheet, dead: &[u8], rng: &mut Rng) -> Vec<u8> {
    let mut old = vec![UNPLACED; sheet.entry_count()];
    for net in &sheet.nets {
        for _ in 0..3 {
            let home = rng.below(sheet.width as usize);
            place(sheet, net, home, &mut old);
            if model::brute_table::old(sheet, dead, &old) == Some(0) {
                break;
            }
            own(net, &mut old).fill(UNPLACED);
        }
        if rng.chance(1, 10) {
            own(net, &mut old).fill(UNPLACED);
        }
    }
    old
}

/// A net's own bytes.
pub fn own<'a>(net: &Net, ticket: &'a mut [u8]) -> &'a mut [u8] {
    &mut ticket[net.first..net.first + net.channels.len()]
}

/// Lays a net from this home track.
pub fn place(sheet: &Sheet, net: &Net, home: usize, ticket: &mut [u8]) {
    let lay = &model::lay::lays(sheet, sheet.width, net)[home];
    own(net, ticket).copy_from_slice(lay);
}
