//! The mark of a sheet, and what it decides: how long a net number is, and with it where the fields of a record stand.

use super::ENTRY;
use alloc::string::{String, ToString};
use core::fmt;

/// The mark of a sheet, its last two bytes. It says how long the net numbers are, and nothing else of the sheet.
///
/// ```
/// use trackrouter::sheet::Mark;
///
/// assert_eq!(Mark::from_bytes([0x57, 0x49]), Some(Mark::Long));
/// // A record is its net number, its entry count of two bytes, and four bytes for each entry.
/// assert_eq!(Mark::Short.entry_at(0), 2 + 2);
/// assert_eq!(Mark::Long.entry_at(0), 4 + 2);
/// assert_eq!(Mark::Long.entry_at(3), 4 + 2 + 3 * 4);
/// ```
#[derive(Clone, Copy, Debug, Default, PartialEq, Eq)]
pub enum Mark {
    /// 57 48: net numbers of 16 bits.
    #[default]
    Short,
    /// 57 49: net numbers of 32 bits.
    Long,
}

/// Where the net number stands in a record.
const NUMBER: usize = 0;

/// The bytes of an entry count.
const ENTRY_COUNT: usize = 2;

impl Mark {
    /// The marks that the library accepts.
    pub const ALL: [Mark; 2] = [Mark::Short, Mark::Long];

    /// The mark in a sheet's bytes.
    pub const fn bytes(self) -> [u8; 2] {
        match self {
            Mark::Short => [0x57, 0x48],
            Mark::Long => [0x57, 0x49],
        }
    }

    /// The mark that a sheet's last two bytes say; `None` for those that the library refuses.
    pub fn from_bytes(bytes: [u8; 2]) -> Option<Mark> {
        Mark::ALL.into_iter().find(|mark| mark.bytes() == bytes)
    }

    /// The mark of a sheet, from its end.
    pub(crate) fn of(sheet: &[u8]) -> Option<Mark> {
        sheet.last_chunk().copied().and_then(Mark::from_bytes)
    }

    /// The bytes of a net number.
    pub const fn number_size(self) -> usize {
        match self {
            Mark::Short => 2,
            Mark::Long => 4,
        }
    }

    /// The largest net number: 65,535 or 4,294,967,295.
    pub const fn largest_number(self) -> u32 {
        u32::MAX >> (u32::BITS - 8 * self.number_size() as u32)
    }

    /// Where the entry count stands in a record.
    pub const fn entry_count_at(self) -> usize {
        NUMBER + self.number_size()
    }

    /// The bytes of a record before its entries.
    pub const fn head(self) -> usize {
        self.entry_count_at() + ENTRY_COUNT
    }

    /// Where an entry stands in its record. Behind the last entry the record ends.
    pub const fn entry_at(self, place: usize) -> usize {
        self.head() + ENTRY * place
    }

    /// The net number of a record.
    pub(crate) fn number(self, record: &[u8]) -> u32 {
        let size = self.number_size();
        let mut bytes = [0; 4];
        bytes[..size].copy_from_slice(&record[NUMBER..NUMBER + size]);
        u32::from_le_bytes(bytes)
    }

    /// Writes a net number, not over the largest, into a record.
    pub(crate) fn put_number(self, record: &mut [u8], number: u32) {
        let size = self.number_size();
        record[NUMBER..NUMBER + size].copy_from_slice(&number.to_le_bytes()[..size]);
    }

    /// Both marks, for a sentence.
    pub(crate) fn both() -> String {
        Mark::ALL.map(|mark| mark.to_string()).join(" or ")
    }
}

impl fmt::Display for Mark {
    /// The two bytes in hexadecimal, as a sheet's text has them.
    fn fmt(&self, f: &mut fmt::Formatter<'_>) -> fmt::Result {
        let [one, two] = self.bytes();
        write!(f, "{one:02X} {two:02X}")
    }
}

#[cfg(test)]
mod tests {
    use super::*;

    /// 01 and M-106: number u16 or u32, count u16, entries of four bytes.
    #[test]
    fn places() {
        let places = |mark: Mark| {
            let ends = [0, 1, 32].map(|place| mark.entry_at(place));
            (mark.number_size(), mark.entry_count_at(), mark.head(), ends)
        };
        assert_eq!(places(Mark::Short), (2, 2, 4, [4, 8, 132]));
        assert_eq!(places(Mark::Long), (4, 4, 6, [6, 10, 134]));
    }

    #[test]
    fn bytes() {
        for second in 0..=255 {
            for first in 0..=255 {
                let mark = match (first, second) {
                    (0x57, 0x48) => Some(Mark::Short),
                    (0x57, 0x49) => Some(Mark::Long),
                    _ => None,
                };
                assert_eq!(Mark::from_bytes([first, second]), mark);
                assert_eq!(Mark::of(&[0, first, second]), mark);
            }
        }
        assert_eq!((Mark::of(&[]), Mark::of(&[0x57])), (None, None));
        assert_eq!(Mark::both(), "57 48 or 57 49");
        assert_eq!(Mark::default(), Mark::Short);
    }

    /// The low byte stands first, and what follows is no part of the number.
    #[test]
    fn numbers() {
        let record = [0x78, 0x56, 0x34, 0x12, 0xFF, 0xFF];
        assert_eq!(Mark::Short.number(&record), 0x5678);
        assert_eq!(Mark::Long.number(&record), 0x1234_5678);
        assert_eq!(Mark::ALL.map(Mark::largest_number), [65_535, 4_294_967_295]);
        for (mark, number, bytes) in [
            (Mark::Short, 0, [0, 0, 9, 9, 9]),
            (Mark::Short, 65_535, [255, 255, 9, 9, 9]),
            (Mark::Short, 258, [2, 1, 9, 9, 9]),
            (Mark::Long, 258, [2, 1, 0, 0, 9]),
            (Mark::Long, 65_535, [255, 255, 0, 0, 9]),
            (Mark::Long, 65_536, [0, 0, 1, 0, 9]),
            (Mark::Long, 4_294_967_295, [255, 255, 255, 255, 9]),
        ] {
            let mut record = [9; 5];
            mark.put_number(&mut record, number);
            assert_eq!((record, mark.number(&record)), (bytes, number));
        }
    }
}
