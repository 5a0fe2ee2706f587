//! Number 5: the directory and the records.

use super::parts::{at_byte, Record};
use super::Fault;
use crate::layout::{
    self, word, Mark, DIRECTORY, ENTRY, KIND, MAX_NET_ENTRIES, NET_COUNT, OFFSET, TRAILER,
};
use crate::number;
use alloc::format;
use alloc::string::String;
use alloc::vec::Vec;

/// The records, which stand back to back from 0 to the directory at its offsets.
pub fn records(bytes: &[u8], trailer: usize, mark: Mark) -> Result<Vec<Record>, Fault> {
    let directory = start(bytes, trailer)?;
    let nets = usize::from(word(bytes, trailer + NET_COUNT));
    let mut records = Vec::new();
    let (mut end, mut first) = (0, 0);
    for place in 0..nets {
        listed(bytes, directory, place, end)?;
        let record = record(bytes, mark, directory, place, end, first)?;
        first += record.entries.len();
        end = record.entry_at(record.entries.len());
        records.push(record);
    }
    if end == directory {
        return Ok(records);
    }
    let says = format!("the directory offset is {directory}");
    let what = if nets == 0 {
        format!("{says}, and with no nets it is 0")
    } else {
        format!("{says}, and the last record ends at {end}")
    };
    Err(at_byte(number::DIRECTORY, trailer + DIRECTORY, what))
}

/// Where the directory starts, if it ends at the trailer or, for kind 3, at the rows before it.
fn start(bytes: &[u8], trailer: usize) -> Result<usize, Fault> {
    let at = trailer + DIRECTORY;
    let (start, nets) = (word(bytes, at), word(bytes, trailer + NET_COUNT));
    let rows = layout::parameters(bytes[trailer + KIND]);
    let sum = usize::from(start) + OFFSET * usize::from(nets) + rows + TRAILER;
    let has = bytes.len();
    if sum == has {
        return Ok(usize::from(start));
    }
    let rows = match rows {
        0 => String::new(),
        rows => format!(", {rows} for the rows of kind 3"),
    };
    let what = format!(
        "directory offset {start}, {OFFSET} bytes for each of {nets} nets{rows} and {TRAILER} for the trailer make {sum}, and the sheet has {has} bytes"
    );
    Err(at_byte(number::DIRECTORY, at, what))
}

/// The directory has the record's start.
fn listed(bytes: &[u8], directory: usize, place: usize, start: usize) -> Result<(), Fault> {
    let at = directory + OFFSET * place;
    let says = word(bytes, at);
    if usize::from(says) == start {
        return Ok(());
    }
    let what = format!("directory entry {place} says {says}, and record {place} starts at {start}");
    Err(at_byte(number::DIRECTORY, at, what).record(place))
}

/// The record that starts here, if it ends before the directory and has 1 to 32 entries.
fn record(
    bytes: &[u8],
    mark: Mark,
    directory: usize,
    place: usize,
    start: usize,
    first: usize,
) -> Result<Record, Fault> {
    let fault = |at: usize, what: String| at_byte(number::DIRECTORY, at, what).record(place);
    if start + mark.head() > directory {
        let what = format!("record {place} does not end before the directory at {directory}");
        return Err(fault(start, what));
    }
    let mut record = Record {
        place,
        number: mark.number(&bytes[start..]),
        mark,
        start,
        first,
        entries: Vec::new(),
    };
    let count_at = start + mark.entry_count_at();
    let count = usize::from(word(bytes, count_at));
    let says = || format!("{} has entry count {count}", record.name());
    if !(1..=MAX_NET_ENTRIES).contains(&count) {
        let what = format!("{}, not 1 to {MAX_NET_ENTRIES}", says());
        return Err(fault(count_at, what));
    }
    let end = record.entry_at(count);
    if end > directory {
        let what = format!(
            "{} and ends at {end}, beyond the directory at {directory}",
            says()
        );
        return Err(fault(count_at, what));
    }
    let entry = |field: &[u8]| (word(field, layout::CHANNEL), word(field, layout::PARENT));
    let entries = &bytes[record.entry_at(0)..end];
    record.entries = entries.chunks_exact(ENTRY).map(entry).collect();
    Ok(record)
}
