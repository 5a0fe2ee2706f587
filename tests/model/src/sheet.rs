//! Reading a sheet: refusals 1 to 9, and 18 between 5 and 6, each test over the
//! whole sheet. Its mark tells the form of the records, 02 M-106.

use crate::chip::{Chip, Side};
use crate::mark::{Head, Mark};
use crate::rows::{self, ROW_BYTES};
use crate::switch::Kind;
use crate::word::{refuse_if, Word};
use std::collections::BTreeSet;

const TRAILER: usize = 12;
/// The limit of 1, the same for both marks and all kinds. It is the longest sheet
/// with long numbers: 64 nets of 32 entries, and kind 3's rows.
pub const LONGEST: usize = 8728;
/// The parent of a net's first entry.
pub const ROOT: u16 = 65535;

/// An accepted sheet.
#[derive(Clone, Debug, PartialEq, Eq)]
pub struct Sheet {
    pub mark: Mark,
    pub chip: Chip,
    pub kind: Kind,
    pub width: u32,
    /// In the sheet's order.
    pub nets: Vec<Net>,
}

#[derive(Clone, Debug, PartialEq, Eq)]
pub struct Net {
    /// Under either mark in 32 bits.
    pub number: u32,
    /// The record's own bytes: where they start and how many there are.
    pub offset: usize,
    pub length: usize,
    /// Where the net's bytes start in a ticket.
    pub first: usize,
    /// The channel of each entry.
    pub channels: Vec<u32>,
    pub joints: Vec<Joint>,
}

/// Two entries of a net, by place, and the sides on which their channels meet.
#[derive(Clone, Copy, Debug, PartialEq, Eq)]
pub struct Joint {
    pub places: (usize, usize),
    pub sides: (Side, Side),
    /// How many of the chip's channels end at the box where they meet.
    pub around: usize,
}

impl Net {
    /// The place of the home: the entry of the lowest-numbered channel.
    pub fn home(&self) -> usize {
        let places = 0..self.channels.len();
        places
            .min_by_key(|&place| self.channels[place])
            .expect("every net has an entry")
    }
}

impl Sheet {
    pub fn entry_count(&self) -> usize {
        self.nets.iter().map(|net| net.channels.len()).sum()
    }

    /// The net with this number, if a record has it.
    pub fn numbered(&self, number: u32) -> Option<&Net> {
        self.nets.iter().find(|net| net.number == number)
    }

    /// The nets' places in the sheet, in rising net number.
    pub fn rising(&self) -> Vec<usize> {
        let mut places: Vec<usize> = (0..self.nets.len()).collect();
        places.sort_by_key(|&place| self.nets[place].number);
        places
    }

    /// How many nets each channel carries, by channel number.
    pub fn loads(&self) -> Vec<u32> {
        let mut loads = vec![0; self.chip.channel_count() as usize];
        for &channel in self.nets.iter().flat_map(|net| &net.channels) {
            loads[channel as usize] += 1;
        }
        loads
    }

    /// The most nets that any channel carries.
    pub fn load(&self) -> u32 {
        self.loads().into_iter().max().unwrap_or(0)
    }
}

/// A record as it stands, before its entries are tested.
struct Record {
    number: u32,
    offset: usize,
    length: usize,
    /// Channel and parent.
    entries: Vec<(u16, u16)>,
}

pub fn parse(bytes: &[u8]) -> Result<Sheet, Word> {
    parse_with(bytes, LONGEST, Mark::head)
}

/// The reading with this limit of 1 and, for each mark, this head of a record.
/// `near_marks` has wrong ones.
pub(crate) fn parse_with(
    bytes: &[u8],
    longest: usize,
    head: impl Fn(Mark) -> Head,
) -> Result<Sheet, Word> {
    let short = bytes.len() < TRAILER;
    refuse_if(short || bytes.len() > longest, Word::Length)?;

    let trailer = &bytes[bytes.len() - TRAILER..];
    let mark = Mark::from_bytes([trailer[10], trailer[11]]).ok_or(Word::Mark)?;
    let wrong_length = usize::from(word_at(trailer, 8)) != bytes.len();
    refuse_if(wrong_length, Word::Mark)?;

    let [a, b, kind, w] = [0, 1, 2, 3].map(|place| trailer[place]);
    let sizes = (2..=16).contains(&a) && (2..=16).contains(&b);
    refuse_if(!sizes || kind > 3 || !(1..=32).contains(&w), Word::Chip)?;
    let chip = Chip {
        columns: a.into(),
        rows: b.into(),
    };

    let count = usize::from(word_at(trailer, 4));
    refuse_if(count > 64, Word::Crowd)?;

    let directory = usize::from(word_at(trailer, 6));
    let tail = TRAILER + if kind == 3 { ROW_BYTES } else { 0 };
    let records = split(bytes, head(mark), count, directory, tail).ok_or(Word::Directory)?;

    let kind = match Kind::from_byte(kind) {
        Some(kind) => kind,
        None => {
            let rows = &bytes[bytes.len() - tail..bytes.len() - TRAILER];
            Kind::Parameters(rows::read(rows).ok_or(Word::Parameter)?)
        }
    };

    refuse_if(records.iter().any(|r| no_channel(chip, r)), Word::Channel)?;
    refuse_if(records.iter().any(channel_twice), Word::Twice)?;
    refuse_if(records.iter().any(|r| bad_parent(chip, r)), Word::Joint)?;
    let names: BTreeSet<u32> = records.iter().map(|r| r.number).collect();
    refuse_if(names.len() < records.len(), Word::Name)?;

    Ok(Sheet {
        mark,
        chip,
        kind,
        width: w.into(),
        nets: nets(chip, &records),
    })
}

fn word_at(bytes: &[u8], at: usize) -> u16 {
    u16::from_le_bytes([bytes[at], bytes[at + 1]])
}

/// The records between offset 0 and the directory, or `None` with refusal 5. Each
/// has this head; `tail` bytes stand after the directory.
fn split(
    bytes: &[u8],
    head: Head,
    count: usize,
    directory: usize,
    tail: usize,
) -> Option<Vec<Record>> {
    if directory + 2 * count + tail != bytes.len() {
        return None;
    }
    let (mut rest, listed) = bytes.split_at(directory);
    let mut records = Vec::new();
    for place in 0..count {
        let offset = directory - rest.len();
        if usize::from(word_at(listed, 2 * place)) != offset {
            return None;
        }
        let n = rest.get(head.count..head.count + 2)?;
        let n = usize::from(word_at(n, 0));
        if !(1..=32).contains(&n) {
            return None;
        }
        let (record, after) = rest.split_at_checked(head.record(n))?;
        records.push(Record {
            number: head.number_in(record),
            offset,
            length: record.len(),
            entries: record[head.entries..]
                .chunks(4)
                .map(|entry| (word_at(entry, 0), word_at(entry, 2)))
                .collect(),
        });
        rest = after;
    }
    rest.is_empty().then_some(records)
}

fn no_channel(chip: Chip, record: &Record) -> bool {
    let mut channels = record.entries.iter().map(|entry| entry.0);
    channels.any(|channel| u32::from(channel) >= chip.channel_count())
}

fn channel_twice(record: &Record) -> bool {
    let different: BTreeSet<u16> = record.entries.iter().map(|entry| entry.0).collect();
    different.len() < record.entries.len()
}

/// Whether some parent breaks its rule. The channels all exist.
fn bad_parent(chip: Chip, record: &Record) -> bool {
    let entries = &record.entries;
    let bad = |place: usize| {
        let (channel, parent) = entries[place];
        if place == 0 {
            return parent != ROOT;
        }
        let parent = usize::from(parent);
        parent >= place
            || chip
                .meeting(channel.into(), entries[parent].0.into())
                .is_none()
    };
    (0..entries.len()).any(bad)
}

/// The nets of records that passed every test.
fn nets(chip: Chip, records: &[Record]) -> Vec<Net> {
    let boxes = chip.boxes();
    let mut first = 0;
    let mut nets = Vec::new();
    for record in records {
        let channels: Vec<u32> = record.entries.iter().map(|e| e.0.into()).collect();
        let joint = |place: usize| {
            let parent = usize::from(record.entries[place].1);
            let ends = chip.meeting_ends(channels[place], channels[parent]);
            let (own, other) = ends.expect("joined channels meet");
            Joint {
                places: (place, parent),
                sides: (own.side, other.side),
                around: boxes.around(own.place),
            }
        };
        nets.push(Net {
            number: record.number,
            offset: record.offset,
            length: record.length,
            first,
            joints: (1..channels.len()).map(joint).collect(),
            channels: channels.clone(),
        });
        first += channels.len();
    }
    nets
}
