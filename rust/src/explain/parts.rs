//! The parts of a sheet, and the tests that find them.

use super::{directory, parameters, trailer, Fault};
use crate::chip::{Chip, Fabric};
use crate::layout::{self, Mark};
use alloc::format;
use alloc::string::String;
use alloc::vec::Vec;

/// A sheet that has none of the faults 1 to 5 and 18.
pub struct Parts {
    pub fabric: Fabric,
    /// In the sheet's order.
    pub records: Vec<Record>,
}

/// A net as its record says it.
pub struct Record {
    /// The list place, from 0.
    pub place: usize,
    pub number: u32,
    /// That of the sheet.
    pub mark: Mark,
    /// Where the record starts in the sheet.
    pub start: usize,
    /// Where the net's bytes start in a ticket.
    pub first: usize,
    /// Channel and parent of each entry.
    pub entries: Vec<(u16, u16)>,
}

impl Parts {
    /// The parts of a sheet's bytes, or the first of the faults 1 to 5 and 18.
    pub fn of(bytes: &[u8]) -> Result<Parts, Fault> {
        let (at, mark) = trailer::start(bytes)?;
        let trailer = &bytes[at..];
        let records = directory::records(bytes, at, mark)?;
        let fabric = Fabric {
            chip: Chip::new(trailer[layout::COLUMNS], trailer[layout::ROWS]),
            kind: parameters::kind(bytes, at)?,
            width: trailer[layout::WIDTH],
        };
        Ok(Parts { fabric, records })
    }

    pub fn entry_count(&self) -> usize {
        self.records.iter().map(|record| record.entries.len()).sum()
    }
}

impl Record {
    /// The net for a reader of the sheet.
    pub fn name(&self) -> String {
        format!("net {} (record {})", self.number, self.place)
    }

    /// Where an entry starts in the sheet.
    pub fn entry_at(&self, entry: usize) -> usize {
        self.start + self.mark.entry_at(entry)
    }
}

/// A fault of the sheet in the field at this byte.
pub fn at_byte(number: u32, at: usize, what: String) -> Fault {
    Fault::of_sheet(number, format!("byte {at}: {what}")).offset(at)
}
