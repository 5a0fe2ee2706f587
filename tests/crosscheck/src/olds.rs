//! Tickets by chance, right and wrong, whole and partly filled.

use model::lay::lays;
use model::sheet::{Net, Sheet};
use sheets::{dead, Rng};
use std::collections::BTreeSet;
use std::ops::Range;

const UNPLACED: u8 = 255;

/// Where a net's bytes stand in a ticket.
pub fn own(net: &Net) -> Range<usize> {
    net.first..net.first + net.channels.len()
}

/// An old ticket that Refit accepts under a list: some nets on chance tracks as long
/// as no wire is dead or held twice, the others unplaced.
pub fn placed_by_chance(sheet: &Sheet, dead: &[u8], rng: &mut Rng) -> Vec<u8> {
    let left_out = rng.below(4);
    placed(Filling::new(sheet, dead), sheet, rng, left_out, 4)
}

/// An old ticket that Refit accepts under a list: nets are unplaced where nothing is
/// left for them, so that others must move.
pub fn placed_to_the_last(sheet: &Sheet, dead: &[u8], rng: &mut Rng) -> Vec<u8> {
    let tries = sheet.width as usize;
    placed(Filling::new(sheet, dead), sheet, rng, 0, tries)
}

/// An old ticket that Refit accepts: net after net on the next home track, or
/// unplaced where that one is held.
pub fn in_turn(sheet: &Sheet) -> Vec<u8> {
    let mut filling = Filling::new(sheet, &[]);
    for (place, net) in sheet.nets.iter().enumerate() {
        let home = place % sheet.width as usize;
        let ways = lays(sheet, sheet.width, net);
        filling.try_place(net, &ways[home]);
    }
    filling.old
}

/// Takes nets in a chance order, leaves out some of 8, tries the others on so
/// many chance tracks.
fn placed(
    mut filling: Filling,
    sheet: &Sheet,
    rng: &mut Rng,
    left_out: usize,
    tries: usize,
) -> Vec<u8> {
    let mut order: Vec<&Net> = sheet.nets.iter().collect();
    rng.shuffle(&mut order);
    for net in order {
        if rng.chance(left_out, 8) {
            continue;
        }
        let mut ways = lays(sheet, sheet.width, net);
        rng.shuffle(&mut ways);
        let mut ways = ways.iter().take(tries);
        ways.any(|way| filling.try_place(net, way));
    }
    filling.old
}

/// An old ticket in the making.
struct Filling {
    old: Vec<u8>,
    /// The wires that are dead or held.
    held: BTreeSet<(u32, u8)>,
}

impl Filling {
    fn new(sheet: &Sheet, dead: &[u8]) -> Self {
        let lost = dead::wires(dead).into_iter();
        Filling {
            old: vec![UNPLACED; sheet.entry_count()],
            held: lost
                .map(|(channel, track)| (channel.into(), track))
                .collect(),
        }
    }

    /// Places the net if none of its wires is dead or held.
    fn try_place(&mut self, net: &Net, tracks: &[u8]) -> bool {
        let wires = || net.channels.iter().copied().zip(tracks.iter().copied());
        let fits = wires().all(|wire| !self.held.contains(&wire));
        if fits {
            self.held.extend(wires());
            self.old[own(net)].copy_from_slice(tracks);
        }
        fits
    }
}

/// The accepted ticket with one fault more, 13: a net is laid onto a wire that
/// another one holds. `None` if no net has a channel of a placed one.
pub fn clashing(ticket: &[u8], sheet: &Sheet, rng: &mut Rng) -> Option<Vec<u8>> {
    let mut chances = Vec::new();
    for holder in &sheet.nets {
        for other in sheet.nets.iter().filter(|net| net.number != holder.number) {
            let at = |channel: &u32| other.channels.iter().position(|c| c == channel);
            let wires = holder.channels.iter().zip(&ticket[own(holder)]);
            let held = wires.filter(|(_, track)| **track != UNPLACED);
            chances.extend(held.filter_map(|(c, track)| Some((other, at(c)?, *track))));
        }
    }
    if chances.is_empty() {
        return None;
    }
    let &(net, place, track) = rng.pick(&chances);
    let ways = lays(sheet, sheet.width, net);
    let way = ways.iter().find(|way| way[place] == track)?;
    let mut ticket = ticket.to_vec();
    ticket[own(net)].copy_from_slice(way);
    Some(ticket)
}

/// Every net on its last home track, whether they clash or not.
pub fn all_last(sheet: &Sheet) -> Vec<u8> {
    let homes = vec![sheet.width - 1; sheet.nets.len()];
    model::lay::ticket(sheet, sheet.width, &homes)
}

/// Every net on its first home track, whether they clash or not.
pub fn all_first(sheet: &Sheet) -> Vec<u8> {
    let homes = vec![0; sheet.nets.len()];
    model::lay::ticket(sheet, sheet.width, &homes)
}

pub fn all_unplaced(sheet: &Sheet) -> Vec<u8> {
    vec![UNPLACED; sheet.entry_count()]
}

/// Changes a ticket of the right size and keeps its size.
pub fn alter(ticket: &mut [u8], sheet: &Sheet, rng: &mut Rng) {
    if sheet.nets.is_empty() {
        return;
    }
    let net = rng.pick(&sheet.nets);
    let place = net.first + rng.below(net.channels.len());
    let width = sheet.width as usize;
    match rng.below(9) {
        // 11
        0 => ticket[place] = width as u8,
        1 => ticket[place] = rng.between(width, 255) as u8,
        2 => ticket[place] = 254,
        // 11 if the net has more bytes
        3 => ticket[place] = UNPLACED,
        // 12 if the net has more bytes, else 13 perhaps
        4 | 5 => ticket[place] = rng.below(width) as u8,
        // 13 perhaps
        6 | 7 => {
            let ways = lays(sheet, sheet.width, net);
            ticket[own(net)].copy_from_slice(&ways[rng.below(width)]);
        }
        // unplaced
        _ => ticket[own(net)].fill(UNPLACED),
    }
}

/// Changes a ticket's size.
pub fn resize(ticket: &mut Vec<u8>, rng: &mut Rng) {
    let length = ticket.len();
    let other = match rng.below(5) {
        0 => 0,
        1 => length.saturating_sub(1),
        2 => 2 * length,
        3 => rng.below(length + 1),
        _ => length + 1,
    };
    ticket.resize(other, 0);
}

/// A ticket with up to three faults.
pub fn mutated(ticket: &[u8], sheet: &Sheet, rng: &mut Rng) -> Vec<u8> {
    let mut ticket = ticket.to_vec();
    for _ in 0..rng.between(1, 3) {
        alter(&mut ticket, sheet, rng);
    }
    if rng.chance(1, 8) {
        resize(&mut ticket, rng);
    }
    ticket
}
