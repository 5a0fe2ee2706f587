//! Lists by chance: good ones from one wire to nearly all, and bad ones.

use super::{list, Wire};
use crate::design::Design;
use crate::rng::Rng;
use std::collections::BTreeSet;

/// The tracks that an item can name.
const TRACKS: usize = 32;

/// What lists for a sheet are drawn from.
pub struct Chances {
    /// How many channels the chip has.
    count: u16,
    /// Channels of nets, as often as nets have them; all channels if there are none.
    used: Vec<u16>,
    width: usize,
}

impl Chances {
    pub fn new(design: &Design) -> Self {
        let channels = design.nets.iter().flat_map(|net| net.channels.clone());
        Chances::of(
            design.grid.channel_count(),
            channels.collect(),
            design.width.into(),
        )
    }

    /// For a chip of `count` channels, nets in these, and a width.
    pub fn of(count: u16, mut used: Vec<u16>, width: usize) -> Self {
        if used.is_empty() {
            used.extend(0..count);
        }
        Chances { count, used, width }
    }

    /// A channel, mostly one of a net.
    fn channel(&self, rng: &mut Rng) -> u16 {
        if rng.chance(3, 4) {
            *rng.pick(&self.used)
        } else {
            rng.below(self.count.into()) as u16
        }
    }

    /// One wire below W.
    pub fn one(&self, rng: &mut Rng) -> Vec<u8> {
        list(&[(self.channel(rng), rng.below(self.width) as u8)])
    }

    /// Up to five wires below W: most sheets can still be routed.
    pub fn few(&self, rng: &mut Rng) -> Vec<u8> {
        let count = rng.between(1, 5);
        let wire = |rng: &mut Rng| (self.channel(rng), rng.below(self.width) as u8);
        let wires = (0..count).map(|_| wire(rng)).collect();
        in_chance_order(wires, rng)
    }

    /// Of the wires on these tracks, so many of `whole` in channels of nets.
    fn part(
        &self,
        tracks: std::ops::Range<usize>,
        part: usize,
        whole: usize,
        rng: &mut Rng,
    ) -> Vec<u8> {
        let channels: BTreeSet<u16> = self.used.iter().copied().collect();
        let mut wires = BTreeSet::new();
        for channel in channels {
            for track in tracks.clone() {
                if rng.chance(part, whole) {
                    wires.insert((channel, track as u8));
                }
            }
        }
        in_chance_order(wires, rng)
    }

    /// Some or nearly all of the wires below W.
    pub fn many(&self, rng: &mut Rng) -> Vec<u8> {
        let part = *rng.pick(&[1, 1, 2, 4, 8, 12, 15]);
        self.part(0..self.width, part, 16, rng)
    }

    /// All tracks of one or two channels, to W or to 31.
    pub fn channels(&self, rng: &mut Rng) -> Vec<u8> {
        let mut wires = BTreeSet::new();
        for _ in 0..rng.between(1, 2) {
            let channel = self.channel(rng);
            let end = *rng.pick(&[self.width, TRACKS]);
            wires.extend((0..end as u8).map(|track| (channel, track)));
        }
        in_chance_order(wires, rng)
    }

    /// Wires at or above W alone, if there are such tracks.
    pub fn above(&self, rng: &mut Rng) -> Vec<u8> {
        let part = *rng.pick(&[1, 4, 16]);
        self.part(self.width..TRACKS, part, 16, rng)
    }

    /// Wires of any track: for Least, few enough for a width to be found.
    pub fn anywhere(&self, rng: &mut Rng) -> Vec<u8> {
        let part = *rng.pick(&[1, 2, 4, 8]);
        self.part(0..TRACKS, part, 16, rng)
    }

    /// A good list of any of these.
    pub fn any(&self, rng: &mut Rng) -> Vec<u8> {
        match rng.below(12) {
            0 | 1 => self.one(rng),
            2..=4 => self.few(rng),
            5 | 6 => self.many(rng),
            7 => self.channels(rng),
            8 => self.above(rng),
            9 => Vec::new(),
            _ => self.anywhere(rng),
        }
    }

    /// A good list with a fault for 19: bytes left over, a channel that this chip
    /// lacks, or a track over 31.
    fn broken_off(&self, dead: &mut Vec<u8>, rng: &mut Rng) {
        let wire = match rng.below(4) {
            0 if !dead.is_empty() => {
                dead.truncate(dead.len() - rng.between(1, 2));
                return;
            }
            0 | 1 => {
                dead.extend((0..rng.between(1, 2)).map(|_| rng.below(8) as u8));
                return;
            }
            2 => {
                let low = self.count + rng.below(3) as u16;
                let channels = [self.count, low, 480, 256 + self.count, 65535];
                (*rng.pick(&channels), rng.below(TRACKS) as u8)
            }
            _ => {
                let track = *rng.pick(&[32, 33, 64, 128, 255]);
                (self.channel(rng), track)
            }
        };
        insert(dead, wire, rng);
    }

    /// A good list with a wire twice: below W or not, mostly not side by side.
    fn repeated(&self, dead: &mut Vec<u8>, rng: &mut Rng) {
        let items = super::wires(dead);
        let wire = if items.is_empty() || rng.chance(1, 3) {
            let wire = (self.channel(rng), rng.below(TRACKS) as u8);
            insert(dead, wire, rng);
            wire
        } else {
            *rng.pick(&items)
        };
        insert(dead, wire, rng);
    }
}

/// The list with a fault for each of 19 and 20 that is asked for.
pub fn harm(chances: &Chances, mut dead: Vec<u8>, numbers: &[u32], rng: &mut Rng) -> Vec<u8> {
    if numbers.contains(&20) {
        chances.repeated(&mut dead, rng);
    }
    if numbers.contains(&19) {
        chances.broken_off(&mut dead, rng);
    }
    dead
}

/// Puts the wire between two items, or at an end.
fn insert(dead: &mut Vec<u8>, wire: Wire, rng: &mut Rng) {
    let at = 3 * rng.below(dead.len() / 3 + 1);
    dead.splice(at..at, list(&[wire]));
}

fn in_chance_order(wires: BTreeSet<Wire>, rng: &mut Rng) -> Vec<u8> {
    let mut wires: Vec<Wire> = wires.into_iter().collect();
    rng.shuffle(&mut wires);
    list(&wires)
}

#[cfg(test)]
mod tests {
    use super::*;
    use crate::dead::wires;
    use crate::paper::t_design;

    /// Channels 0 to 6, nets in 0, 1 and 5.
    fn chances() -> Chances {
        Chances::new(&t_design(0, 3))
    }

    fn is_bad(dead: &[u8]) -> bool {
        let items = wires(dead);
        dead.len() % 3 != 0
            || items
                .iter()
                .any(|&(channel, track)| channel > 6 || track > 31)
    }

    fn repeats(dead: &[u8]) -> bool {
        let items = wires(dead);
        let different: BTreeSet<&Wire> = items.iter().collect();
        different.len() < items.len()
    }

    #[test]
    fn good_lists_are_good() {
        let (chances, mut rng) = (chances(), Rng::new(105));
        for _ in 0..2000 {
            let dead = chances.any(&mut rng);
            assert!(!is_bad(&dead) && !repeats(&dead), "{dead:?}");
            let above = wires(&chances.above(&mut rng));
            assert!(above.iter().all(|wire| wire.1 >= 3));
            let many = wires(&chances.many(&mut rng));
            assert!(many.iter().all(|wire| wire.1 < 3));
        }
    }

    #[test]
    fn bad_lists_are_bad() {
        let (chances, mut rng) = (chances(), Rng::new(106));
        for _ in 0..2000 {
            let good = chances.any(&mut rng);
            let mut one = |numbers: &[u32]| harm(&chances, good.clone(), numbers, &mut rng);
            assert!(is_bad(&one(&[19])));
            let twice = one(&[20]);
            assert!(repeats(&twice) && !is_bad(&twice));
            assert!(is_bad(&one(&[19, 20])));
        }
    }
}
