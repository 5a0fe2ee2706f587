//! The layout of a sheet's bytes (docs/FORMATS.md): records, directory, for kind 3 the rows of its inner boxes, trailer. Words have two
//! bytes, the low byte first. What a record has before its entries depends on the sheet's mark.

mod mark;

pub use mark::Mark;

use crate::chip::{Row, Rows};
use crate::KIND_ROWS;
use alloc::vec::Vec;

/// The bytes of the trailer, which ends the sheet.
pub const TRAILER: usize = 12;

// Where the fields stand in the trailer.
pub const COLUMNS: usize = 0;
pub const ROWS: usize = 1;
pub const KIND: usize = 2;
pub const WIDTH: usize = 3;
pub const NET_COUNT: usize = 4;
pub const DIRECTORY: usize = 6;
pub const LENGTH: usize = 8;
pub const MARK_AT: usize = 10;

/// The bytes of the rows of inner boxes: a sign and a shift for each column of the box table.
pub const PARAMETERS: usize = 12;

/// The bytes between the directory and the trailer of a sheet of this kind.
pub const fn parameters(kind: u8) -> usize {
    match kind {
        KIND_ROWS => PARAMETERS,
        _ => 0,
    }
}

/// The bytes of a row: its sign and its shift.
pub const ROW: usize = 2;

/// The rows that the bytes say; `None` for other than six rows, or a sign or a shift that the library refuses.
pub fn rows(parameters: &[u8]) -> Option<Rows> {
    let row = |bytes: &[u8]| Row::from_bytes([*bytes.first()?, *bytes.get(1)?]);
    let rows: Option<Vec<Row>> = parameters.chunks(ROW).map(row).collect();
    rows?.try_into().ok()
}

/// The bytes of a record's offset in the directory.
pub const OFFSET: usize = 2;

/// The bytes of an entry.
pub const ENTRY: usize = 4;

// Where the fields stand in an entry.
pub const CHANNEL: usize = 0;
pub const PARENT: usize = 2;

/// The most entries of one net.
pub const MAX_NET_ENTRIES: usize = 32;

pub fn word(bytes: &[u8], at: usize) -> u16 {
    u16::from_le_bytes([bytes[at], bytes[at + 1]])
}

pub fn put_word(bytes: &mut [u8], at: usize, word: u16) {
    bytes[at..at + 2].copy_from_slice(&word.to_le_bytes());
}

#[cfg(test)]
mod tests {
    use super::*;
    use crate::chip::Chip;
    use crate::{DEAD_ITEM, MAX_DEAD, MAX_ENTRIES, MAX_NETS, MAX_SHEET, MAX_WIDTH};

    /// Of each mark, with rows and without: the longest of all is the limit for every sheet.
    #[test]
    fn the_longest_sheets() {
        let longest = |mark: Mark, parameters| {
            let net = OFFSET + mark.entry_at(MAX_NET_ENTRIES);
            MAX_NETS * net + parameters + TRAILER
        };
        let lengths = |mark| [0, PARAMETERS].map(|parameters| longest(mark, parameters));
        assert_eq!(lengths(Mark::Short), [8_588, 8_600]);
        assert_eq!(lengths(Mark::Long), [8_716, MAX_SHEET]);
        assert_eq!(MAX_NETS * MAX_NET_ENTRIES, MAX_ENTRIES);
    }

    /// Every wire of the largest chip at the largest width.
    #[test]
    fn the_longest_list() {
        let side = *Chip::SIZES.end();
        let channels = Chip::new(side, side).channels() as usize;
        let wires = channels * usize::from(MAX_WIDTH);
        assert_eq!(wires * DEAD_ITEM, MAX_DEAD);
    }
}
