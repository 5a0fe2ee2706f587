//! Numbers 6 to 9: the entries of the nets, and their numbers.

use super::parts::{Parts, Record};
use super::Fault;
use crate::chip::Chip;
use crate::layout;
use crate::{number, NO_PARENT};
use alloc::format;
use alloc::string::String;

pub fn fault(parts: &Parts) -> Option<Fault> {
    let records = &parts.records;
    let first = |test: fn(Chip, &Record, usize) -> Option<Fault>| {
        let mut all = records.iter();
        all.find_map(|record| {
            (0..record.entries.len()).find_map(|entry| test(parts.fabric.chip, record, entry))
        })
    };
    first(channel)
        .or_else(|| first(twice))
        .or_else(|| first(joint))
        .or_else(|| name(records))
}

/// A fault in an entry, in the field that stands so many bytes behind its start.
fn in_entry(number: u32, record: &Record, entry: usize, field: usize, what: String) -> Fault {
    let at = record.entry_at(entry);
    let finding = format!("{}, entry {entry} at byte {at}: {what}", record.name());
    let fault = Fault::of_sheet(number, finding);
    fault.record(record.place).entry(entry).offset(at + field)
}

/// Number 6.
fn channel(chip: Chip, record: &Record, entry: usize) -> Option<Fault> {
    let (channel, _) = record.entries[entry];
    let last = chip.channels() - 1;
    if u32::from(channel) <= last {
        return None;
    }
    let (columns, rows) = (chip.columns, chip.rows);
    let what =
        format!("channel {channel}, and a chip of {columns} by {rows} has channels 0 to {last}");
    Some(in_entry(
        number::CHANNEL,
        record,
        entry,
        layout::CHANNEL,
        what,
    ))
}

/// Number 7: the place of the second.
fn twice(_: Chip, record: &Record, entry: usize) -> Option<Fault> {
    let (channel, _) = record.entries[entry];
    let mut earlier = record.entries[..entry].iter();
    let before = earlier.position(|other| other.0 == channel)?;
    let what = format!("channel {channel}, which entry {before} has already");
    Some(in_entry(
        number::TWICE,
        record,
        entry,
        layout::CHANNEL,
        what,
    ))
}

/// Number 8. The channels exist and none stands twice in a net.
fn joint(chip: Chip, record: &Record, entry: usize) -> Option<Fault> {
    let (channel, parent) = record.entries[entry];
    let earlier = &record.entries[..entry];
    let what = match earlier.get(usize::from(parent)) {
        None if entry == 0 && parent == NO_PARENT => return None,
        None if entry == 0 => {
            format!("channel {channel} has parent {parent}, and the first entry's parent is {NO_PARENT}")
        }
        None if parent == NO_PARENT => {
            format!("channel {channel} has no parent ({NO_PARENT}), and only the first entry may have none")
        }
        None => format!("channel {channel} has parent {parent}, which is not an earlier entry"),
        Some(&(other, _)) if chip.meet(channel, other).is_some() => return None,
        Some((other, _)) => {
            format!("channel {channel} and channel {other} of its parent {parent} do not meet")
        }
    };
    let at = record.entry_at(entry) + layout::PARENT;
    let what = format!("{what} (parent at byte {at})");
    Some(in_entry(number::JOINT, record, entry, layout::PARENT, what))
}

/// Number 9: the place of the second.
fn name(records: &[Record]) -> Option<Fault> {
    records.iter().find_map(|record| {
        let mut earlier = records[..record.place].iter();
        let before = earlier.find(|other| other.number == record.number)?;
        let finding = format!(
            "{} at byte {}: record {} at byte {} has the number {} already",
            record.name(),
            record.start,
            before.place,
            before.start,
            record.number
        );
        let fault = Fault::of_sheet(number::NAME, finding);
        Some(fault.record(record.place).offset(record.start))
    })
}
