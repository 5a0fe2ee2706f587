//! What is drawn of each net, its wires with the tracks that the ticket gives them and its joints, and the dead wires.

use super::colours::colour;
use super::dead::{self, DeadWire};
use crate::chip::{Chip, End};
use crate::sheet::{Net, Sheet};
use crate::{MAX_WIDTH, UNPLACED};
use alloc::collections::{BTreeMap, BTreeSet};
use alloc::string::ToString;
use alloc::vec::Vec;

/// Where a net runs along a channel.
#[derive(Clone, Copy, PartialEq, Eq, PartialOrd, Ord)]
pub enum Place {
    Track(u8),
    /// Beside the tracks, for an unplaced net.
    Lane(usize),
}

pub struct Wire {
    pub channel: u16,
    pub ends: [End; 2],
    pub place: Place,
    /// The digits of each net number before it on the same channel and place; none in a right ticket.
    pub before: Vec<usize>,
}

/// A joint: the places of its two wires in their net, the parent first, and their ends where the channels meet.
pub struct Joint {
    pub wires: [usize; 2],
    pub ends: [End; 2],
}

impl Joint {
    /// The column and row of the box where it is.
    pub fn square(&self) -> (u8, u8) {
        (self.ends[0].column, self.ends[0].row)
    }
}

pub struct Drawn {
    pub number: u32,
    pub colour: &'static str,
    pub placed: bool,
    pub wires: Vec<Wire>,
    pub joints: Vec<Joint>,
}

/// All nets in the sheet's order, how many lanes the unplaced ones need, and the dead wires.
pub struct Wiring {
    pub nets: Vec<Drawn>,
    pub lanes: usize,
    pub dead: Vec<DeadWire>,
}

impl Wiring {
    /// `None` if there is no picture; `draw::svg` says when.
    pub fn new(sheet: &Sheet, dead: &[u8], ticket: Option<&[u8]>) -> Option<Wiring> {
        let chip = sheet.chip();
        let in_range = Chip::SIZES.contains(&chip.columns)
            && Chip::SIZES.contains(&chip.rows)
            && (1..=MAX_WIDTH).contains(&sheet.width())
            && ticket.is_none_or(|ticket| ticket.len() == sheet.entry_count());
        if !in_range {
            return None;
        }
        let dead = dead::wires(sheet, dead)?;
        let mut lanes = Lanes::default();
        let mut held = BTreeMap::new();
        let mut nets = Vec::new();
        for ((net, part), rank) in sheet.parts().zip(ranks(sheet.nets())) {
            let (places, placed) = match ticket.map(|ticket| &ticket[part]) {
                Some(bytes) if bytes.iter().all(|&track| track < sheet.width()) => {
                    (tracks(bytes), true)
                }
                Some(bytes) if bytes.iter().any(|&track| track != UNPLACED) => return None,
                _ => (lanes.take(net), false),
            };
            nets.push(Drawn {
                number: net.number(),
                colour: colour(rank),
                placed,
                wires: wires(chip, net, &places, &mut held)?,
                joints: joints(chip, net)?,
            });
        }
        let lanes = lanes.count;
        Some(Wiring { nets, lanes, dead })
    }
}

fn tracks(bytes: &[u8]) -> Vec<Place> {
    bytes.iter().map(|&track| Place::Track(track)).collect()
}

/// For each net its place in rising net number, so that the order of the records does not change the colours.
fn ranks(nets: &[Net]) -> Vec<usize> {
    let mut rising: Vec<usize> = (0..nets.len()).collect();
    rising.sort_by_key(|&place| nets[place].number());
    let mut ranks = rising.clone();
    for (rank, &place) in rising.iter().enumerate() {
        ranks[place] = rank;
    }
    ranks
}

/// `None` for a channel that there is not, or that the net has twice.
fn wires(
    chip: Chip,
    net: &Net,
    places: &[Place],
    held: &mut BTreeMap<(u16, Place), Vec<usize>>,
) -> Option<Vec<Wire>> {
    let digits = net.number().to_string().len();
    let mut own = BTreeSet::new();
    let wire = |(channel, &place): (u16, &Place)| {
        if !own.insert(channel) {
            return None;
        }
        let holders = held.entry((channel, place)).or_default();
        let before = holders.clone();
        holders.push(digits);
        Some(Wire {
            channel,
            ends: chip.ends(channel)?,
            place,
            before,
        })
    };
    net.channels().zip(places).map(wire).collect()
}

/// `None` for a joint of channels that do not meet.
fn joints(chip: Chip, net: &Net) -> Option<Vec<Joint>> {
    let entries = net.entries();
    let joint = |(place, parent): (usize, usize)| {
        let [one, other] = [parent, place].map(|place| entries[place].channel);
        Some(Joint {
            wires: [parent, place],
            ends: chip.meet(one, other)?,
        })
    };
    let children = entries.iter().enumerate();
    let pairs = children.filter_map(|(place, entry)| Some((place, usize::from(entry.parent?))));
    pairs.map(joint).collect()
}

/// The lanes that unplaced nets have, channel by channel.
#[derive(Default)]
struct Lanes {
    taken: BTreeSet<(u16, usize)>,
    count: usize,
}

impl Lanes {
    /// The lowest lane that is free in all channels of the net, for each of its entries.
    fn take(&mut self, net: &Net) -> Vec<Place> {
        let free = |lane: &usize| {
            net.channels()
                .all(|channel| !self.taken.contains(&(channel, *lane)))
        };
        let lane = (0..self.count).find(free).unwrap_or(self.count);
        self.count = self.count.max(lane + 1);
        self.taken
            .extend(net.channels().map(|channel| (channel, lane)));
        net.channels().map(|_| Place::Lane(lane)).collect()
    }
}
