//! A sheet from its bytes, and its bytes.

use super::{Entry, Mark, Net, Sheet, TooLarge};
use crate::chip::{Fabric, Kind};
use crate::layout::{self, put_word, word, ENTRY, OFFSET, TRAILER};
use crate::refusal::Refusal;
use crate::{number, read, record, NO_PARENT};
use alloc::vec;
use alloc::vec::Vec;

impl Sheet {
    /// Takes an accepted sheet apart; any other is refused by the library's number.
    pub fn read(bytes: &[u8]) -> Result<Sheet, Refusal> {
        let counts = read(bytes)?;
        // An accepted sheet has one of the two marks.
        let mark = Mark::of(bytes).ok_or(Refusal {
            number: number::MARK,
            trials: 0,
        })?;
        let (before, trailer) = bytes.split_at(bytes.len() - TRAILER);
        let (columns, rows) = (trailer[layout::COLUMNS], trailer[layout::ROWS]);
        let (kind, width) = (trailer[layout::KIND], trailer[layout::WIDTH]);
        let mut sheet = Sheet::new(columns, rows, kind_of(kind, before), width).with_mark(mark);
        for place in 0..counts.nets as usize {
            sheet.push(net(mark, record(bytes, place)));
        }
        Ok(sheet)
    }

    /// The sheet's bytes.
    pub fn bytes(&self) -> Result<Vec<u8>, TooLarge> {
        let size = |net: &Net| self.mark.entry_at(net.entries.len()) + OFFSET;
        let parameters = parameters(self.kind());
        let nets: usize = self.nets.iter().map(size).sum();
        let length = nets + parameters.len() + TRAILER;
        // Every offset and count is smaller, so it fits in its word too.
        let length_field = u16::try_from(length).map_err(|_| TooLarge::Sheet(length))?;
        let mut bytes = Vec::with_capacity(length);
        let mut directory = Vec::with_capacity(OFFSET * self.nets.len());
        for net in &self.nets {
            directory.extend((bytes.len() as u16).to_le_bytes());
            put_net(&mut bytes, self.mark, net)?;
        }
        let trailer = self.trailer(bytes.len() as u16, length_field);
        bytes.extend(directory);
        bytes.extend(parameters);
        bytes.extend(trailer);
        Ok(bytes)
    }

    fn trailer(&self, directory: u16, length: u16) -> [u8; TRAILER] {
        let Fabric { chip, kind, width } = self.fabric;
        let mut trailer = [0; TRAILER];
        trailer[layout::COLUMNS] = chip.columns;
        trailer[layout::ROWS] = chip.rows;
        trailer[layout::KIND] = kind.number();
        trailer[layout::WIDTH] = width;
        put_word(&mut trailer, layout::NET_COUNT, self.nets.len() as u16);
        put_word(&mut trailer, layout::DIRECTORY, directory);
        put_word(&mut trailer, layout::LENGTH, length);
        trailer[layout::MARK_AT..].copy_from_slice(&self.mark.bytes());
        trailer
    }
}

/// The rows of a kind by rows; no other kind has any bytes.
fn parameters(kind: Kind) -> Vec<u8> {
    match kind {
        Kind::Rows(rows) => rows.iter().flat_map(|row| row.bytes()).collect(),
        _ => Vec::new(),
    }
}

/// The kind of an accepted sheet; its rows stand last before the trailer.
fn kind_of(number: u8, before: &[u8]) -> Kind {
    let start = before.len() - layout::parameters(number);
    let rows = layout::rows(&before[start..]);
    rows.map_or(number.into(), Kind::Rows)
}

/// The net's record.
fn put_net(bytes: &mut Vec<u8>, mark: Mark, net: &Net) -> Result<(), TooLarge> {
    if net.number > mark.largest_number() {
        return Err(TooLarge::Number(net.number));
    }
    let mut head = vec![0; mark.head()];
    mark.put_number(&mut head, net.number);
    put_word(&mut head, mark.entry_count_at(), net.entries.len() as u16);
    bytes.extend(head);
    for entry in &net.entries {
        let mut field = [0; ENTRY];
        put_word(&mut field, layout::CHANNEL, entry.channel);
        put_word(
            &mut field,
            layout::PARENT,
            entry.parent.unwrap_or(NO_PARENT),
        );
        bytes.extend(field);
    }
    Ok(())
}

/// The net of an accepted sheet's record.
fn net(mark: Mark, record: &[u8]) -> Net {
    let entry = |field: &[u8]| Entry {
        channel: word(field, layout::CHANNEL),
        parent: Some(word(field, layout::PARENT)).filter(|&parent| parent != NO_PARENT),
    };
    Net {
        number: mark.number(record),
        entries: record[mark.head()..]
            .chunks_exact(ENTRY)
            .map(entry)
            .collect(),
    }
}
