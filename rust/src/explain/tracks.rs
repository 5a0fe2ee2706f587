//! Numbers 10 to 13 and 21: a ticket of an accepted sheet and list of dead wires.

use super::list::Dead;
use super::parts::{Parts, Record};
use super::{By, Fault};
use crate::chip::{End, Fabric, Wire};
use crate::{number, UNPLACED};
use alloc::collections::BTreeMap;
use alloc::format;
use alloc::string::String;
use alloc::vec::Vec;

/// A ticket of the right size: the nets that count, with their tracks.
struct Ticket<'a> {
    parts: &'a Parts,
    dead: &'a Dead,
    by: By,
    nets: Vec<(&'a Record, &'a [u8])>,
}

/// In a ticket for Refit or Remove, nets whose bytes are all 255 are not looked at.
pub fn fault(parts: &Parts, dead: &Dead, ticket: &[u8], by: By) -> Option<Fault> {
    let entries = parts.entry_count();
    if ticket.len() != entries {
        let has = format!("the ticket has {} bytes", ticket.len());
        let finding = format!("{has}, and the sheet has {entries} entries");
        return Some(Fault::of_ticket(number::SIZE, finding));
    }
    let tracks = |record: &Record| &ticket[record.first..record.first + record.entries.len()];
    let nets = parts.records.iter().map(|record| (record, tracks(record)));
    let counts = |tracks: &[u8]| by == By::Check || tracks.iter().any(|&byte| byte != UNPLACED);
    let nets = nets.filter(|net| counts(net.1)).collect();
    let counted = Ticket {
        parts,
        dead,
        by,
        nets,
    };
    counted
        .first(Ticket::track)
        .or_else(|| counted.first(Ticket::switch))
        .or_else(|| counted.first(Ticket::broken))
        .or_else(|| counted.clash())
}

/// A fault at an entry's byte.
fn at_byte(number: u32, record: &Record, entry: usize, finding: String) -> Fault {
    let fault = Fault::of_ticket(number, finding);
    let offset = record.first + entry;
    fault.record(record.place).entry(entry).offset(offset)
}

/// The entry for a reader of the ticket.
fn name(record: &Record, entry: usize) -> String {
    let byte = record.first + entry;
    format!("{}, entry {entry} (ticket byte {byte})", record.name())
}

impl Ticket<'_> {
    /// The first entry at which a test finds something.
    fn first(&self, test: fn(&Self, &Record, &[u8], usize) -> Option<Fault>) -> Option<Fault> {
        let mut nets = self.nets.iter();
        nets.find_map(|(record, tracks)| {
            (0..tracks.len()).find_map(|entry| test(self, record, tracks, entry))
        })
    }

    /// Number 11.
    fn track(&self, record: &Record, tracks: &[u8], entry: usize) -> Option<Fault> {
        let (track, width) = (tracks[entry], self.parts.fabric.width);
        if track < width {
            return None;
        }
        let (channel, _) = record.entries[entry];
        let what = match track {
            UNPLACED if self.by == By::Refit => {
                "255, and the net is unplaced only if all its bytes are 255".into()
            }
            UNPLACED => format!("255 (unplaced), not a track below W {width}"),
            _ => format!("track {track}, not below W {width}"),
        };
        let finding = format!("{}: channel {channel} has {what}", name(record, entry));
        Some(at_byte(number::TRACK, record, entry, finding))
    }

    /// Number 12, at the later entry of the joint. All tracks are below the width.
    fn switch(&self, record: &Record, tracks: &[u8], entry: usize) -> Option<Fault> {
        let fabric = self.parts.fabric;
        let Fabric { chip, kind, width } = fabric;
        let (channel, parent) = record.entries[entry];
        // The first entry has no parent.
        let parent = usize::from(parent);
        let (other, _) = *record.entries.get(parent)?;
        let [here, _] = chip.meet(channel, other)?;
        let (track, others) = (tracks[entry], tracks[parent]);
        let right = fabric.partner(other, channel, others)?;
        if track == right {
            return None;
        }
        let End { column, row, .. } = here;
        let rim = match chip.is_rim(column, row) {
            true => ", on the rim: equal tracks",
            false => "",
        };
        let finding = format!(
            "{}: channel {channel} has track {track}, and its parent's channel {other} has track {others}, whose partner in channel \
             {channel} is {right} (kind {kind}, W {width}, box column {column} row {row}{rim})",
            name(record, entry)
        );
        Some(at_byte(number::SWITCH, record, entry, finding))
    }

    /// Number 21. All tracks are below the width, so that items at or above it are never met.
    fn broken(&self, record: &Record, tracks: &[u8], entry: usize) -> Option<Fault> {
        let (channel, _) = record.entries[entry];
        let track = tracks[entry];
        let item = *self.dead.get(&Wire { channel, track })?;
        let finding = format!(
            "{}: channel {channel} has track {track}, a dead wire (item {item} of the list)",
            name(record, entry)
        );
        Some(at_byte(number::BROKEN, record, entry, finding).item(item))
    }

    /// Number 13, at the byte that holds a wire of an earlier net.
    fn clash(&self) -> Option<Fault> {
        let mut held = BTreeMap::new();
        for &(record, tracks) in &self.nets {
            for (entry, &track) in tracks.iter().enumerate() {
                let (channel, _) = record.entries[entry];
                if let Some((other, at)) = held.insert((channel, track), (record, entry)) {
                    let (here, there) = (name(record, entry), name(other, at));
                    let finding =
                        format!("{here} and {there} both hold channel {channel}, track {track}");
                    return Some(at_byte(number::CLASH, record, entry, finding));
                }
            }
        }
        None
    }
}
