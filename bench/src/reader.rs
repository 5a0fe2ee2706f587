//! A sheet read and tested in plain Rust: the numbers 1 to 9, each test over the
//! whole sheet, in the library's steps.
#![forbid(unsafe_code)]

use crate::grid::Grid;
use crate::tables::{word, NETS};
use std::ops::RangeInclusive;
use trackrouter::{number, KINDS, MAX_SHEET, MAX_WIDTH, NO_PARENT};

/// No net has more entries.
pub const ENTRIES: usize = 32;

/// The bytes of the trailer, of a record before its entries, and of an entry.
const TRAILER: usize = 12;
pub const HEAD: usize = 4;
pub const ENTRY: usize = 4;

const SIDES: RangeInclusive<u8> = 2..=16;

/// A sheet that is accepted, or still being tested.
pub struct Sheet<'a> {
    pub bytes: &'a [u8],
    grid: Grid,
    /// How many nets there are.
    pub nets: usize,
    /// Where the directory starts.
    pub directory: usize,
}

/// The bytes of a record, from its net number to its last entry.
#[derive(Clone, Copy)]
pub struct Record<'a>(pub &'a [u8]);

impl Record<'_> {
    pub fn number(self) -> usize {
        word(self.0, 0)
    }

    /// How many entries it has.
    pub fn entries(self) -> usize {
        word(self.0, 2)
    }

    pub fn channel(self, entry: usize) -> usize {
        word(self.0, HEAD + ENTRY * entry)
    }

    pub fn parent(self, entry: usize) -> usize {
        word(self.0, HEAD + ENTRY * entry + 2)
    }
}

/// The sheet, or the first number that applies.
pub fn read(bytes: &[u8]) -> Result<Sheet<'_>, u32> {
    let sizes = TRAILER..=MAX_SHEET;
    refuse(!sizes.contains(&bytes.len()), number::LENGTH)?;
    let trailer = &bytes[bytes.len() - TRAILER..];
    refuse(bad_mark(trailer, bytes.len()), number::MARK)?;
    refuse(bad_chip(trailer), number::CHIP)?;
    let sheet = Sheet {
        bytes,
        grid: Grid {
            cols: trailer[0].into(),
            rows: trailer[1].into(),
        },
        nets: word(trailer, 4),
        directory: word(trailer, 6),
    };
    refuse(sheet.nets > NETS, number::CROWD)?;
    refuse(sheet.bad_directory(), number::DIRECTORY)?;
    refuse(sheet.any(Sheet::unknown_channel), number::CHANNEL)?;
    refuse(sheet.any(Sheet::channel_twice), number::TWICE)?;
    refuse(sheet.any(Sheet::bad_parent), number::JOINT)?;
    refuse(sheet.name_twice(), number::NAME)?;
    Ok(sheet)
}

fn refuse(applies: bool, number: u32) -> Result<(), u32> {
    if applies {
        return Err(number);
    }
    Ok(())
}

fn bad_mark(trailer: &[u8], length: usize) -> bool {
    trailer[10..] != [0x57, 0x48] || word(trailer, 8) != length
}

fn bad_chip(trailer: &[u8]) -> bool {
    let sides = SIDES.contains(&trailer[0]) && SIDES.contains(&trailer[1]);
    let kind = usize::from(trailer[2]) < KINDS.len();
    let width = (1..=MAX_WIDTH).contains(&trailer[3]);
    !(sides && kind && width)
}

impl<'a> Sheet<'a> {
    /// The record at a list place.
    pub fn record(&self, place: usize) -> Record<'a> {
        let record = &self.bytes[word(self.bytes, self.directory + 2 * place)..];
        let entries = Record(record).entries();
        Record(&record[..HEAD + ENTRY * entries])
    }

    pub fn records(&self) -> impl Iterator<Item = Record<'a>> + '_ {
        (0..self.nets).map(|place| self.record(place))
    }

    /// Where the directory ends.
    pub fn rest(&self) -> usize {
        self.directory + 2 * self.nets
    }

    /// Whether the directory does not end at the trailer, or the records do not
    /// stand back to back up to it, at its offsets, with 1 to 32 entries.
    fn bad_directory(&self) -> bool {
        if self.rest() + TRAILER != self.bytes.len() {
            return true;
        }
        let (records, behind) = self.bytes.split_at(self.directory);
        let mut at = 0;
        for offset in behind.chunks_exact(2).take(self.nets) {
            let Some(head) = records.get(at..at + HEAD) else {
                return true;
            };
            let entries = Record(head).entries();
            if word(offset, 0) != at || !(1..=ENTRIES).contains(&entries) {
                return true;
            }
            at += HEAD + ENTRY * entries;
        }
        at != self.directory
    }

    /// Whether the test finds a fault in some record.
    fn any(&self, test: fn(&Self, Record) -> bool) -> bool {
        self.records().any(|record| test(self, record))
    }

    fn unknown_channel(&self, record: Record) -> bool {
        let channels = self.grid.channels();
        (0..record.entries()).any(|entry| record.channel(entry) >= channels)
    }

    fn channel_twice(&self, record: Record) -> bool {
        (0..record.entries()).any(|entry| {
            let channel = record.channel(entry);
            (0..entry).any(|earlier| record.channel(earlier) == channel)
        })
    }

    fn bad_parent(&self, record: Record) -> bool {
        (0..record.entries()).any(|entry| {
            let parent = record.parent(entry);
            if entry == 0 {
                return parent != usize::from(NO_PARENT);
            }
            parent >= entry || !self.joined(record.channel(parent), record.channel(entry))
        })
    }

    /// Whether two different channels meet.
    fn joined(&self, one: usize, other: usize) -> bool {
        self.grid.meeting(one, other).is_some()
    }

    fn name_twice(&self) -> bool {
        (0..self.nets).any(|place| {
            let number = self.record(place).number();
            (0..place).any(|earlier| self.record(earlier).number() == number)
        })
    }
}
