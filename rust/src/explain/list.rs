//! Numbers 19 and 20: a list of dead wires for an accepted sheet.

use super::Fault;
use crate::chip::{Chip, Wire};
use crate::{number, DEAD_ITEM, MAX_WIDTH};
use alloc::collections::BTreeMap;
use alloc::format;
use alloc::string::String;

/// The wires of an accepted list, each with the place of its item.
pub type Dead = BTreeMap<Wire, usize>;

/// The dead wires that the list names, or the first of the faults 19 and 20: first whether its items are whole.
pub fn dead(chip: Chip, bytes: &[u8]) -> Result<Dead, Fault> {
    let items = bytes.chunks_exact(DEAD_ITEM);
    let more = items.remainder().len();
    if more != 0 {
        let end = bytes.len();
        let what =
            format!("the list ends at byte {end}, after {more} of the item's {DEAD_ITEM} bytes");
        return Err(in_item(number::LIST, end / DEAD_ITEM, 0, what));
    }
    let item = |item: &[u8]| Wire::from_bytes([item[0], item[1], item[2]]);
    let items = items.map(item).enumerate();
    for (place, wire) in items.clone() {
        known(chip, place, wire)?;
    }
    let mut dead = Dead::new();
    for (place, wire) in items {
        if let Some(before) = dead.insert(wire, place) {
            let Wire { channel, track } = wire;
            let what = format!("channel {channel}, track {track}, which item {before} has already");
            return Err(in_item(number::REPEAT, place, 0, what));
        }
    }
    Ok(dead)
}

/// A fault in an item, in the field that stands so many bytes behind its start.
fn in_item(number: u32, place: usize, field: usize, what: String) -> Fault {
    let at = DEAD_ITEM * place;
    let finding = format!("item {place} at byte {at} of the list: {what}");
    let fault = Fault::of_list(number, finding);
    fault.item(place).offset(at + field)
}

/// Number 19: the channel of an item, then its track.
fn known(chip: Chip, place: usize, Wire { channel, track }: Wire) -> Result<(), Fault> {
    let last = chip.channels() - 1;
    if u32::from(channel) > last {
        let (columns, rows) = (chip.columns, chip.rows);
        let what = format!(
            "channel {channel}, and a chip of {columns} by {rows} has channels 0 to {last}"
        );
        return Err(in_item(number::LIST, place, 0, what));
    }
    let highest = MAX_WIDTH - 1;
    if track > highest {
        let what = format!("track {track}, not 0 to {highest}");
        return Err(in_item(number::LIST, place, DEAD_ITEM - 1, what));
    }
    Ok(())
}
